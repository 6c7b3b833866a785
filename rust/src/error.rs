//! What can go wrong: the refusals of the library, with their numbers and their order, and three errors of this package.

use std::fmt;
use std::io;

/// Why a call gave no result.
///
/// The library's refusals have a [number](Error::number); [`Error::REFUSALS`] lists them in their order: where several
/// apply to one call, the first of them is given. The other errors belong to this package.
///
/// ```
/// use giophantus::{Error, Parameters};
///
/// let refused = Parameters::new(4, 1455, 2, 1, 1, 4).unwrap_err();
/// assert_eq!(refused, Error::Modulus);
/// assert_eq!(refused.number(), Some(4));
/// assert_eq!(refused.to_string(), "refusal 4: q is above 2147483647, or not above the bound of the set");
/// ```
#[derive(Clone, Copy, Debug, PartialEq, Eq, Hash)]
#[non_exhaustive]
pub enum Error {
    /// 1: ℓ isn't 2, 4, 8 or 16.
    Range,
    /// 2: n is outside 2 to 4,096.
    Ring,
    /// 3: dX or dr isn't 1 or 2.
    Degree,
    /// 4: q is above 2,147,483,647, or not above the bound of the set.
    Modulus,
    /// 5: mlen is above n × b or no multiple of b.
    MessageSize,
    /// 6: a buffer isn't of its exact length.
    Length,
    /// 7: a packed element or message has a non-zero unused bit.
    Padding,
    /// 8: a coefficient is q or more, or ℓ or more where a small one is expected.
    Coefficient,
    /// 9: the random octets end before the last draw is complete.
    RandomExhausted,
    /// 10: a decrypted coefficient past mlen bits isn't zero.
    Tail,
    /// 11: a line of six or seven numbers is malformed.
    Line,
    /// 14: an element of a given secret key has a zero top coefficient, that of t^(n - 1).
    TopCoefficient,
    /// 18: the edition isn't 1 or 2.
    Edition,
    /// A number that this package does not know: the library is newer than the package.
    Unknown(u32),
    /// Two values that were made under different sets, their editions apart, met in one call. No refusal has this
    /// meaning, since the library is never asked.
    DifferentSets,
    /// The reader that was to give random octets failed.
    RandomSource(io::ErrorKind),
}

impl Error {
    /// The refusals of the library, in their order: where several apply, the first of these is given. It isn't the order
    /// of their numbers.
    ///
    /// ```
    /// let numbers = giophantus::Error::REFUSALS.map(|refusal| refusal.number().unwrap());
    /// assert_eq!(numbers, [11, 1, 2, 3, 4, 5, 18, 6, 7, 8, 14, 9, 10]);
    /// ```
    pub const REFUSALS: [Error; 13] = [
        Error::Line,
        Error::Range,
        Error::Ring,
        Error::Degree,
        Error::Modulus,
        Error::MessageSize,
        Error::Edition,
        Error::Length,
        Error::Padding,
        Error::Coefficient,
        Error::TopCoefficient,
        Error::RandomExhausted,
        Error::Tail,
    ];

    /// The refusal's number, or `None` for [`DifferentSets`](Error::DifferentSets) and
    /// [`RandomSource`](Error::RandomSource), which are no refusals of the library.
    pub fn number(self) -> Option<u32> {
        match self {
            Error::Range => Some(1),
            Error::Ring => Some(2),
            Error::Degree => Some(3),
            Error::Modulus => Some(4),
            Error::MessageSize => Some(5),
            Error::Length => Some(6),
            Error::Padding => Some(7),
            Error::Coefficient => Some(8),
            Error::RandomExhausted => Some(9),
            Error::Tail => Some(10),
            Error::Line => Some(11),
            Error::TopCoefficient => Some(14),
            Error::Edition => Some(18),
            Error::Unknown(number) => Some(number),
            Error::DifferentSets | Error::RandomSource(_) => None,
        }
    }

    /// The refusal with this number; `None` for 0, which is success.
    ///
    /// ```
    /// use giophantus::Error;
    ///
    /// assert_eq!(Error::from_number(9), Some(Error::RandomExhausted));
    /// assert_eq!(Error::from_number(0), None);
    /// ```
    pub fn from_number(number: u32) -> Option<Error> {
        let known = Error::REFUSALS.into_iter().find(|refusal| refusal.number() == Some(number));
        match number {
            0 => None,
            _ => Some(known.unwrap_or(Error::Unknown(number))),
        }
    }

    /// Whether this refusal is the one that is given where both apply: it stands before the other in
    /// [`REFUSALS`](Error::REFUSALS). An error that doesn't stand there comes after all that do.
    ///
    /// ```
    /// use giophantus::Error;
    ///
    /// assert!(Error::TopCoefficient.precedes(Error::RandomExhausted)); // 14 and 9
    /// assert!(!Error::TopCoefficient.precedes(Error::Coefficient)); // 14 and 8
    /// ```
    pub fn precedes(self, other: Error) -> bool {
        let refusals = Error::REFUSALS;
        let place = |error| refusals.iter().position(|&refusal| refusal == error).unwrap_or(refusals.len());
        place(self) < place(other)
    }

    /// What the error says, in one sentence.
    pub fn sentence(self) -> &'static str {
        match self {
            Error::Range => "l isn't 2, 4, 8 or 16",
            Error::Ring => "n is outside 2 to 4096",
            Error::Degree => "dX or dr isn't 1 or 2",
            Error::Modulus => "q is above 2147483647, or not above the bound of the set",
            Error::MessageSize => "mlen is above n * b or no multiple of b",
            Error::Length => "a buffer isn't of its exact length",
            Error::Padding => "a packed element or message has a non-zero unused bit",
            Error::Coefficient => "a coefficient is q or more, or l or more where a small one is expected",
            Error::RandomExhausted => "the random octets end before the last draw is complete",
            Error::Tail => "a decrypted coefficient past mlen bits isn't zero",
            Error::Line => "a line of six or seven numbers is malformed",
            Error::TopCoefficient => "an element of the secret key has a zero top coefficient, that of t^(n - 1)",
            Error::Edition => "the edition isn't 1 or 2",
            Error::Unknown(_) => "the library gave a number that this package does not know",
            Error::DifferentSets => "two values belong to different sets",
            Error::RandomSource(_) => "the source of random octets failed",
        }
    }

    /// What to do about it, in one sentence.
    pub fn advice(self) -> &'static str {
        match self {
            Error::Range => "choose l as 2, 4, 8 or 16",
            Error::Ring => "choose n from 2 to 4096",
            Error::Degree => "choose dX and dr as 1 or 2",
            Error::Modulus => "choose a larger q (at most 2147483647), or a smaller l, n, dX or dr",
            Error::MessageSize => "choose mlen as b times the number of counts, at most n * b",
            Error::Length => "check that the data is whole and was made under this set",
            Error::Padding => "check that the data is undamaged and was made under this set",
            Error::Coefficient => {
                "check that the data is undamaged and was made under this set, and that each count is below l"
            }
            Error::RandomExhausted => {
                "give the same random octets again with more behind them; zeros alone never suffice for keys"
            }
            Error::Tail => "check the secret key, mlen, and that no more ciphertexts were added than the headroom",
            Error::Line => {
                "write l q n dX dr mlen, and the edition where it isn't 1, as decimal numbers with one space between"
            }
            Error::TopCoefficient => {
                "check that the key is undamaged and was made under this set; where it is from before keygen dropped \
                 such elements, make new keys"
            }
            Error::Edition => "choose edition 1, or 2 for keys that are drawn as the second supplier draws them",
            Error::Unknown(_) => "use the package and the library of one release",
            Error::DifferentSets => "make both under one set; a blank is never added to counts",
            Error::RandomSource(_) => "check the source, or name another",
        }
    }
}

impl fmt::Display for Error {
    fn fmt(&self, f: &mut fmt::Formatter<'_>) -> fmt::Result {
        if let Some(number) = self.number() {
            write!(f, "refusal {number}: ")?;
        }
        f.write_str(self.sentence())?;
        if let Error::RandomSource(kind) = self {
            write!(f, ": {kind}")?;
        }
        Ok(())
    }
}

impl std::error::Error for Error {}

#[cfg(test)]
mod tests {
    use super::*;

    #[test]
    fn numbers_go_both_ways() {
        for refusal in Error::REFUSALS {
            assert_eq!(refusal.number().and_then(Error::from_number), Some(refusal));
        }
        assert_eq!(Error::from_number(0), None);
        for number in [12, 13, 15, 17, 19, u32::MAX] {
            assert_eq!(Error::from_number(number), Some(Error::Unknown(number)));
            assert_eq!(Error::Unknown(number).number(), Some(number));
        }
        assert_eq!(Error::DifferentSets.number(), None);
    }

    #[test]
    fn one_of_two_refusals_precedes_the_other() {
        for (at, one) in Error::REFUSALS.into_iter().enumerate() {
            for (place, another) in Error::REFUSALS.into_iter().enumerate() {
                assert_eq!(one.precedes(another), at < place, "{one:?} and {another:?}");
            }
            assert!(one.precedes(Error::Unknown(12)) && !Error::Unknown(12).precedes(one));
        }
        assert!(!Error::Unknown(12).precedes(Error::Unknown(13)));
    }

    #[test]
    fn every_error_has_a_sentence_of_its_own() {
        let mut sentences: Vec<String> = Error::REFUSALS.iter().map(Error::to_string).collect();
        sentences.push(Error::Unknown(12).to_string());
        sentences.push(Error::DifferentSets.to_string());
        sentences.push(Error::RandomSource(io::ErrorKind::NotFound).to_string());
        sentences.sort();
        sentences.dedup();
        assert_eq!(sentences.len(), Error::REFUSALS.len() + 3);
        assert!(sentences.iter().all(|one| !one.contains('\n')));
    }
}
