//! The parameter set.

use std::fmt;
use std::io::Read;
use std::marker::PhantomData;
use std::str::FromStr;

use crate::error::Error;
use crate::ffi::{self, Lengths, Numbers};
use crate::keys::{Keys, PublicKey, SecretKey};
use crate::random::{self, Draws};
use crate::workspace;

/// The tag of a set that is chosen while the program runs.
///
/// It is the default: `Parameters` is `Parameters<AnySet>`, `Ciphertext` is `Ciphertext<AnySet>`, and so on. Such values
/// carry their set with them, and a call that is given values of two sets answers [`Error::DifferentSets`], unless the sets
/// differ in the [edition](Parameters::edition) alone.
#[derive(Clone, Copy, Debug, PartialEq, Eq)]
pub enum AnySet {}

/// The tag of a set that is known when the program is compiled: a type of your own.
///
/// Values of different tags have different types, so a program that mixes them does not compile; and octets alone tell
/// what they are, so that keys, messages, ciphertexts and ring elements have `TryFrom<&[u8]>`.
///
/// ```
/// use giophantus::{Ciphertext, FixedSet, Parameters};
///
/// /// Four counts of 0 to 15.
/// enum Counts {}
/// impl FixedSet for Counts {
///     const NUMBERS: [u32; 6] = [16, 2147483647, 4, 1, 1, 16];
/// }
///
/// /// A field that was left blank: the same set with mlen 0. It can't be added to counts.
/// enum Blank {}
/// impl FixedSet for Blank {
///     const NUMBERS: [u32; 6] = [16, 2147483647, 4, 1, 1, 0];
/// }
///
/// # fn main() -> Result<(), giophantus::Error> {
/// let counts = Parameters::<Counts>::fixed()?;
/// assert_eq!(counts.headroom(), 819);
///
/// let received = vec![0; 96];
/// let ciphertext = Ciphertext::<Counts>::try_from(&received[..])?;
/// assert_eq!(ciphertext.as_ref(), &received[..]);
/// # Ok(())
/// # }
/// ```
///
/// A blank among the summands does not compile:
///
/// ```compile_fail
/// # use giophantus::{Ciphertext, Error, FixedSet};
/// # enum Counts {}
/// # impl FixedSet for Counts { const NUMBERS: [u32; 6] = [16, 2147483647, 4, 1, 1, 16]; }
/// # enum Blank {}
/// # impl FixedSet for Blank { const NUMBERS: [u32; 6] = [16, 2147483647, 4, 1, 1, 0]; }
/// fn total(counts: &Ciphertext<Counts>, blank: &Ciphertext<Blank>) -> Result<Ciphertext<Counts>, Error> {
///     counts + blank
/// }
/// ```
///
/// A tag for keys that are drawn as the second supplier draws them names its edition:
///
/// ```
/// use giophantus::{FixedSet, Parameters};
///
/// enum SecondSupplier {}
/// impl FixedSet for SecondSupplier {
///     const NUMBERS: [u32; 6] = [16, 2147483647, 4, 1, 1, 16];
///     const EDITION: u32 = 2;
/// }
///
/// assert_eq!(Parameters::<SecondSupplier>::fixed()?.edition(), 2);
/// # Ok::<(), giophantus::Error>(())
/// ```
pub trait FixedSet {
    /// ℓ, q, n, dX, dr, mlen.
    const NUMBERS: [u32; 6];
    /// The edition, 1 or 2: [`Parameters::edition`].
    const EDITION: u32 = FIRST_EDITION;
}

/// The edition of a set of six numbers.
const FIRST_EDITION: u32 = 1;

/// Six numbers, and an edition behind them.
fn in_edition([l, q, n, dx, dr, mlen]: [u32; 6], edition: u32) -> [u32; 7] {
    [l, q, n, dx, dr, mlen, edition]
}

/// A parameter set that the library has accepted. There is no other way to make one.
///
/// ```
/// use giophantus::{Error, Parameters};
///
/// let set = Parameters::new(4, 65521, 2, 1, 1, 4)?;
/// assert_eq!(set.bound(), 1455);
/// assert_eq!(set.headroom(), 45);
/// assert_eq!(set.counts_len(), 2);
///
/// assert_eq!(Parameters::new(4, 65521, 2, 1, 1, 3), Err(Error::MessageSize));
/// # Ok::<(), Error>(())
/// ```
pub struct Parameters<S = AnySet> {
    numbers: Numbers,
    bound: u32,
    headroom: u32,
    lengths: Lengths,
    tag: PhantomData<fn() -> S>,
}

impl Parameters {
    /// The set of these six numbers in edition 1, if the library accepts it: refusals 1 to 5.
    pub fn new(l: u32, q: u32, n: u32, dx: u32, dr: u32, mlen: u32) -> Result<Self, Error> {
        Self::try_from([l, q, n, dx, dr, mlen])
    }

    /// The same set in this edition: refusal 18 where it isn't 1 or 2. A set with a tag has the edition of its tag.
    ///
    /// ```
    /// use giophantus::{Error, Parameters};
    ///
    /// let first = Parameters::new(4, 1459, 2, 1, 1, 4)?;
    /// let second = first.with_edition(2)?;
    /// assert_eq!((first.edition(), second.edition()), (1, 2));
    /// assert_eq!((first.keygen_fixed_octets(), second.keygen_fixed_octets()), (10, 14));
    ///
    /// assert_eq!(first.with_edition(3), Err(Error::Edition));
    /// # Ok::<(), Error>(())
    /// ```
    pub fn with_edition(self, edition: u32) -> Result<Self, Error> {
        Self::accepted(Numbers { edition, ..self.numbers })
    }
}

impl<S: FixedSet> Parameters<S> {
    /// The set that the tag stands for, if the library accepts it: refusals 1 to 5 and 18.
    pub fn fixed() -> Result<Self, Error> {
        Self::accepted(in_edition(S::NUMBERS, S::EDITION).into())
    }
}

impl<S> Parameters<S> {
    fn accepted(numbers: Numbers) -> Result<Self, Error> {
        let (bound, headroom) = ffi::limits(numbers)?;
        let lengths = ffi::lengths(numbers)?;
        Ok(Parameters { numbers, bound, headroom, lengths, tag: PhantomData })
    }

    /// The seven numbers: ℓ, q, n, dX, dr, mlen, edition.
    pub fn numbers(&self) -> [u32; 7] {
        self.numbers.into()
    }

    /// The numbers as the library takes them.
    pub(crate) fn raw(&self) -> Numbers {
        self.numbers
    }

    /// ℓ: a count is below it, and totals are modulo ℓ.
    pub fn l(&self) -> u32 {
        self.numbers.l
    }

    /// q, the modulus.
    pub fn q(&self) -> u32 {
        self.numbers.q
    }

    /// n, the number of coefficients of a ring element.
    pub fn n(&self) -> u32 {
        self.numbers.n
    }

    /// dX, the degree of a public key.
    pub fn dx(&self) -> u32 {
        self.numbers.dx
    }

    /// dr, the degree of the polynomial that encryption draws.
    pub fn dr(&self) -> u32 {
        self.numbers.dr
    }

    /// mlen, the length of a message in bits.
    pub fn mlen(&self) -> u32 {
        self.numbers.mlen
    }

    /// The edition, by whose rule keys are drawn: 1, or 2 for the second supplier's draws. In edition 2 the n
    /// coefficients of a public key's constant are drawn too, after the others, and thrown away.
    ///
    /// From the same octets both editions make the same keys; only how many octets are used, how many groups are dropped
    /// and whether the octets suffice differ. Nothing but key generation depends on the edition, so values of sets that
    /// differ in it alone may meet in one call, whose result has the set of the value that it was called on. `==` of
    /// sets, and of values, tells the editions apart.
    ///
    /// ```
    /// use giophantus::{Error, Message, Parameters};
    ///
    /// let first = Parameters::new(4, 1459, 2, 1, 1, 4)?;
    /// let second = first.with_edition(2)?;
    /// let random = [0x09, 0x04, 5, 0, 7, 0, 100, 0, 1, 0, 0, 0, 0, 0];
    /// let (one, other) = (first.keygen(&random)?, second.keygen(&random)?);
    /// assert_eq!(one.public_key.as_ref(), other.public_key.as_ref());
    /// assert_eq!((one.used.octets, other.used.octets), (10, 14));
    /// assert_eq!(second.keygen(&random[..13]).unwrap_err(), Error::RandomExhausted);
    ///
    /// let message = Message::from_counts(&first, &[2, 3])?;
    /// let ciphertext = other.public_key.encrypt(&message, &[0; 18])?.ciphertext;
    /// assert_eq!(one.secret_key.decrypt(&ciphertext)?, message);
    /// # Ok::<(), Error>(())
    /// ```
    pub fn edition(&self) -> u32 {
        self.numbers.edition
    }

    /// b, the bits of a count: ℓ is 2 to the power b.
    pub fn b(&self) -> u32 {
        self.l().trailing_zeros()
    }

    /// B, the bound of the set: each fresh ciphertext takes as much of q, at most.
    pub fn bound(&self) -> u32 {
        self.bound
    }

    /// The headroom: the largest s with s × B < q. As many fresh ciphertexts may be added.
    pub fn headroom(&self) -> u32 {
        self.headroom
    }

    /// Whether the sum of so many fresh ciphertexts is promised to decrypt to the total modulo ℓ. A ciphertext that is
    /// added twice counts twice.
    ///
    /// ```
    /// let set = giophantus::Parameters::new(4, 65521, 2, 1, 1, 4)?;
    /// assert!(set.is_within_headroom(45));
    /// assert!(!set.is_within_headroom(46));
    /// # Ok::<(), giophantus::Error>(())
    /// ```
    pub fn is_within_headroom(&self, summands: u64) -> bool {
        summands <= u64::from(self.headroom)
    }

    /// The number of counts in a message: mlen / b.
    pub fn counts_len(&self) -> usize {
        (self.mlen() / self.b()) as usize
    }

    /// Whether this is a set for blank fields: mlen is 0.
    pub fn is_blank(&self) -> bool {
        self.mlen() == 0
    }

    /// The same set with mlen 0, under which a blank field goes out, in the same edition. Keys of one serve the other.
    ///
    /// ```
    /// use giophantus::{Message, Parameters};
    ///
    /// let set = Parameters::new(4, 65521, 2, 1, 1, 4)?;
    /// let blank = Message::from_counts(&set.blank(), &[])?;
    /// assert_eq!(blank.as_ref(), []);
    /// # Ok::<(), giophantus::Error>(())
    /// ```
    pub fn blank(&self) -> Parameters {
        let mut blank = self.any();
        blank.numbers.mlen = 0;
        blank.lengths.message = 0;
        blank
    }

    /// The same set without its tag.
    pub fn any(&self) -> Parameters {
        let Parameters { numbers, bound, headroom, lengths, .. } = *self;
        Parameters { numbers, bound, headroom, lengths, tag: PhantomData }
    }

    /// Octets of a secret key.
    pub fn secret_key_len(&self) -> usize {
        self.lengths.secret_key
    }

    /// Octets of a public key.
    pub fn public_key_len(&self) -> usize {
        self.lengths.public_key
    }

    /// Octets of a message.
    pub fn message_len(&self) -> usize {
        self.lengths.message
    }

    /// Octets of a ciphertext.
    pub fn ciphertext_len(&self) -> usize {
        self.lengths.ciphertext
    }

    /// Octets of a ring element.
    pub fn element_len(&self) -> usize {
        self.lengths.public_key / monomials(self.dx())
    }

    /// Octets of a packed small element.
    pub fn small_len(&self) -> usize {
        self.lengths.secret_key / 2
    }

    /// qlen, the octets of a coefficient.
    pub fn coefficient_len(&self) -> usize {
        self.element_len() / self.places()
    }

    /// The fixed part of the random octets of key generation, used where nothing is dropped:
    /// 2 × ⌈n × b / 8⌉ + qlen × (N(dX) - 2 + edition) × n, where N(d) is (d + 1)(d + 2) / 2. For each group that is
    /// dropped it uses qlen more, and for each element ⌈n × b / 8⌉ more ([`RandomUse`](crate::RandomUse)).
    ///
    /// ```
    /// let set = giophantus::Parameters::new(4, 1459, 2, 1, 1, 4)?;
    /// assert_eq!(set.keygen_fixed_octets(), 10);
    /// assert_eq!(set.encryption_fixed_octets(), 18);
    /// # Ok::<(), giophantus::Error>(())
    /// ```
    pub fn keygen_fixed_octets(&self) -> usize {
        self.keygen_draws().fixed_octets(self)
    }

    /// The fixed part of the random octets of an encryption: qlen × N(dr) × n + N(dX + dr) × ⌈n × b / 8⌉. For each group
    /// that is dropped it uses qlen more.
    pub fn encryption_fixed_octets(&self) -> usize {
        self.encryption_draws().fixed_octets(self)
    }

    /// n, as a length.
    pub(crate) fn places(&self) -> usize {
        self.n() as usize
    }

    /// Words of a secret key.
    pub(crate) fn secret_key_words(&self) -> usize {
        2 * self.places()
    }

    /// Words of a public key.
    pub(crate) fn public_key_words(&self) -> usize {
        monomials(self.dx()) * self.places()
    }

    /// Words of a ciphertext.
    pub(crate) fn ciphertext_words(&self) -> usize {
        monomials(self.dx() + self.dr()) * self.places()
    }

    /// Words of work.
    pub(crate) fn work_words(&self) -> usize {
        self.lengths.work
    }

    /// Success where two values belong to one set, its edition apart, which matters at key generation alone.
    pub(crate) fn same(&self, other: &Self) -> Result<(), Error> {
        if self.numbers == (Numbers { edition: self.edition(), ..other.numbers }) {
            Ok(())
        } else {
            Err(Error::DifferentSets)
        }
    }

    /// Makes a secret key and its public key from random octets: refusal 9 where they end too early. Octets that were
    /// used once must not be used again; [`Keys::used`] says how many were, from the front, and how many groups and
    /// elements among them were dropped. Zeros alone are dropped, however many there are.
    ///
    /// ```
    /// use giophantus::{Error, Parameters};
    ///
    /// let set = Parameters::new(4, 1459, 2, 1, 1, 4)?;
    /// let random = [0x09, 0x04, 0x05, 0, 0x07, 0, 0x64, 0, 0x01, 0];
    /// let keys = set.keygen(&random)?;
    /// assert_eq!(keys.secret_key.as_ref(), [0x09, 0x04]);
    /// assert_eq!(keys.used.octets, 10);
    /// assert!(keys.secret_key.is_zero_of(&keys.public_key)?);
    ///
    /// assert_eq!(set.keygen(&random[..9]).unwrap_err(), Error::RandomExhausted);
    /// # Ok::<(), Error>(())
    /// ```
    pub fn keygen(&self, random: &[u8]) -> Result<Keys<S>, Error> {
        let mut secret_key = vec![0; self.lengths.secret_key];
        let mut public_key = vec![0; self.lengths.public_key];
        let used = workspace::with(self.work_words(), |work| {
            ffi::keygen(self.numbers, random, &mut secret_key, &mut public_key, work)
        })?;
        Ok(Keys {
            secret_key: SecretKey::judged(*self, secret_key),
            public_key: PublicKey::judged(*self, public_key),
            used,
        })
    }

    /// Makes keys as [`keygen`](Self::keygen) does, with octets from a reader. It reads exactly the octets that it
    /// uses: the next call with the same reader goes on behind them. Refusal 9 where the reader ends too early, or where
    /// some 4 MiB of it aren't enough: it then gives nothing but elements or groups that are dropped.
    ///
    /// ```no_run
    /// use std::fs::File;
    ///
    /// let set = giophantus::Parameters::new(16, 2147483647, 64, 1, 1, 256)?;
    /// let keys = set.keygen_from(File::open("/dev/urandom")?)?;
    /// # Ok::<(), Box<dyn std::error::Error>>(())
    /// ```
    pub fn keygen_from(&self, source: impl Read) -> Result<Keys<S>, Error> {
        self.keygen(&random::read(self, &self.keygen_draws(), source)?)
    }

    /// The draws of key generation: u_x and u_y, then the elements of the public key, in edition 1 without the constant.
    fn keygen_draws(&self) -> Draws {
        let elements = monomials(self.dx()) + self.edition() as usize - 2;
        Draws { secret: 2, below_q: elements * self.places(), noise: 0 }
    }

    /// The draws of an encryption: the elements of r, then the small elements of e.
    pub(crate) fn encryption_draws(&self) -> Draws {
        Draws { secret: 0, below_q: monomials(self.dr()) * self.places(), noise: monomials(self.dx() + self.dr()) }
    }

    /// The n coefficients of a ring element: refusal 6 for a wrong length, 8 for a coefficient of q or more.
    pub fn element_from_octets(&self, octets: &[u8]) -> Result<Vec<u32>, Error> {
        let mut words = vec![0; self.places()];
        ffi::element_from_octets(self.numbers, octets, &mut words)?;
        Ok(words)
    }

    /// The octets of a ring element: refusal 6 for a wrong length, 8 for a word of q or more.
    pub fn element_to_octets(&self, words: &[u32]) -> Result<Vec<u8>, Error> {
        let mut octets = vec![0; self.element_len()];
        ffi::element_to_octets(self.numbers, words, &mut octets)?;
        Ok(octets)
    }

    /// The n coefficients of a packed small element: refusal 6 for a wrong length, 7 for a non-zero unused bit.
    ///
    /// ```
    /// let set = giophantus::Parameters::new(4, 1459, 2, 1, 1, 4)?;
    /// assert_eq!(set.small_from_octets(&[0x09])?, [1, 2]); // 1 + 2t
    /// # Ok::<(), giophantus::Error>(())
    /// ```
    pub fn small_from_octets(&self, octets: &[u8]) -> Result<Vec<u32>, Error> {
        let mut words = vec![0; self.places()];
        ffi::small_from_octets(self.numbers, octets, &mut words)?;
        Ok(words)
    }

    /// The octets of a small element: refusal 6 for a wrong length, 8 for a word of ℓ or more.
    pub fn small_to_octets(&self, words: &[u32]) -> Result<Vec<u8>, Error> {
        let mut octets = vec![0; self.small_len()];
        ffi::small_to_octets(self.numbers, words, &mut octets)?;
        Ok(octets)
    }
}

/// N(d) = (d + 1)(d + 2) / 2, the number of monomials of total degree at most d.
fn monomials(d: u32) -> usize {
    ((d + 1) * (d + 2) / 2) as usize
}

// Written out, since a derived one would ask the same of the tag.
impl<S> Clone for Parameters<S> {
    fn clone(&self) -> Self {
        *self
    }
}

impl<S> Copy for Parameters<S> {}

impl<S> PartialEq for Parameters<S> {
    fn eq(&self, other: &Self) -> bool {
        self.numbers == other.numbers
    }
}

impl<S> Eq for Parameters<S> {}

impl<S> fmt::Debug for Parameters<S> {
    fn fmt(&self, f: &mut fmt::Formatter<'_>) -> fmt::Result {
        f.debug_struct("Parameters")
            .field("l", &self.l())
            .field("q", &self.q())
            .field("n", &self.n())
            .field("dx", &self.dx())
            .field("dr", &self.dr())
            .field("mlen", &self.mlen())
            .field("edition", &self.edition())
            .finish()
    }
}

/// The six numbers with one space between, and in edition 2 the edition as a seventh, as the program roomsheet reads them:
/// the same set is read back.
impl<S> fmt::Display for Parameters<S> {
    fn fmt(&self, f: &mut fmt::Formatter<'_>) -> fmt::Result {
        let [l, q, n, dx, dr, mlen, edition] = self.numbers();
        write!(f, "{l} {q} {n} {dx} {dr} {mlen}")?;
        match edition {
            FIRST_EDITION => Ok(()),
            _ => write!(f, " {edition}"),
        }
    }
}

/// Six numbers are a set of edition 1.
impl TryFrom<[u32; 6]> for Parameters {
    type Error = Error;

    fn try_from(numbers: [u32; 6]) -> Result<Self, Error> {
        Self::try_from(in_edition(numbers, FIRST_EDITION))
    }
}

/// The seventh number is the edition.
impl TryFrom<[u32; 7]> for Parameters {
    type Error = Error;

    fn try_from(numbers: [u32; 7]) -> Result<Self, Error> {
        Self::accepted(numbers.into())
    }
}

/// A line as the program roomsheet reads it, without its newline: six decimal numbers, or seven with the edition, with one
/// space between, no sign, no needless leading zero, at most 80 octets. Six numbers are edition 1. Refusal 11 where it is
/// malformed, then 1 to 5 and 18.
///
/// ```
/// use giophantus::{Error, Parameters};
///
/// let set: Parameters = "4 65521 2 1 1 4".parse()?;
/// assert_eq!(set, "4 65521 2 1 1 4 1".parse()?);
/// assert_eq!(set.to_string(), "4 65521 2 1 1 4");
/// assert_eq!(set.with_edition(2)?.to_string(), "4 65521 2 1 1 4 2");
///
/// assert_eq!("4 1459 2 1 1".parse::<Parameters>(), Err(Error::Line));
/// assert_eq!("4 1459 2 1 1 4 3".parse::<Parameters>(), Err(Error::Edition));
/// # Ok::<(), Error>(())
/// ```
impl FromStr for Parameters {
    type Err = Error;

    fn from_str(line: &str) -> Result<Self, Error> {
        if line.len() > 80 {
            return Err(Error::Line);
        }
        let numbers: Option<Vec<u32>> = line.split(' ').map(number_from).collect();
        match numbers.ok_or(Error::Line)?[..] {
            [l, q, n, dx, dr, mlen] => Self::try_from([l, q, n, dx, dr, mlen]),
            [l, q, n, dx, dr, mlen, edition] => Self::try_from([l, q, n, dx, dr, mlen, edition]),
            _ => Err(Error::Line),
        }
    }
}

/// A decimal number without sign or needless leading zero, at most 4,294,967,295.
fn number_from(word: &str) -> Option<u32> {
    let digits = !word.is_empty() && word.bytes().all(|octet| octet.is_ascii_digit());
    let needless_zero = word.len() > 1 && word.starts_with('0');
    if digits && !needless_zero {
        word.parse().ok()
    } else {
        None
    }
}

#[cfg(test)]
mod tests {
    use super::*;

    #[test]
    fn lines_follow_roomsheet() {
        for line in [
            "",
            " ",
            "4 1459 2 1 1",
            "4 1459 2 1 1 4 ",
            " 4 1459 2 1 1 4",
            "4  1459 2 1 1 4",
            "4 1459 2 1 1 4 2 ",
            "4 1459 2 1 1 4  2",
            "4 1459 2 1 1 4 01",
            "4 1459 2 1 1 4 +2",
            "4 1459 2 1 1 4 4294967297",
            "4 1459 2 1 1 4 2 0",
            "4 1459 2 1 1 4 1 1 1",
            "4 1459 2 1 1 4\n",
            "4 1459 2 1 1 4 2\n",
            "4 1459 2 1 1 +4",
            "4 1459 2 1 1 -4",
            "4 01459 2 1 1 4",
            "4 1459 2 1 1 00",
            "4 4294967296 2 1 1 4",
            "4 1459 2 1 1 ٤",
            "4\t1459\t2\t1\t1\t4",
        ] {
            assert_eq!(line.parse::<Parameters>(), Err(Error::Line), "{line:?}");
        }
        let long = format!("4 {:0>80} 2 1 1 4", 1459);
        assert_eq!(long.parse::<Parameters>(), Err(Error::Line));
        assert_eq!("4 4294967295 2 1 1 4".parse::<Parameters>(), Err(Error::Modulus));
        assert_eq!("0 0 0 0 0 0".parse::<Parameters>(), Err(Error::Range));
        assert!("4 1459 2 1 1 0".parse::<Parameters>().is_ok());
    }

    /// A set that is refused by 1 to 5 is refused so whatever its edition is.
    #[test]
    fn a_seventh_number_is_the_edition() {
        for (line, error) in [
            ("4 1459 2 1 1 4 0", Error::Edition),
            ("4 1459 2 1 1 4 3", Error::Edition),
            ("4 1459 2 1 1 4 4294967295", Error::Edition),
            ("4 1455 2 1 1 4 3", Error::Modulus),
            ("4 1459 2 1 1 3 3", Error::MessageSize),
            ("4 1455 2 1 1 4 2", Error::Modulus),
            ("0 0 0 0 0 0 0", Error::Range),
        ] {
            assert_eq!(line.parse::<Parameters>(), Err(error), "{line}");
        }
        for (line, shown, edition) in [
            ("4 1459 2 1 1 4", "4 1459 2 1 1 4", 1),
            ("4 1459 2 1 1 4 1", "4 1459 2 1 1 4", 1),
            ("4 1459 2 1 1 4 2", "4 1459 2 1 1 4 2", 2),
        ] {
            let set: Parameters = line.parse().unwrap();
            assert_eq!(set.numbers(), [4, 1459, 2, 1, 1, 4, edition]);
            assert_eq!((set.bound(), set.headroom(), set.edition()), (1455, 1, edition));
            assert_eq!(set.to_string(), shown);
            assert_eq!(shown.parse(), Ok(set));
            assert_eq!(Parameters::try_from(set.numbers()), Ok(set));
            assert_eq!(Parameters::try_from([4, 1459, 2, 1, 1, 4]).unwrap().with_edition(edition), Ok(set));
        }
        // The longest line of seven numbers has 76 octets.
        assert_eq!(["4294967295"; 7].join(" ").parse::<Parameters>(), Err(Error::Range));
    }

    #[test]
    fn lengths_follow_the_formulas() {
        // qlen 1 to 4, every degree, and b 3, which crosses octets.
        for (line, lengths) in [
            ("2 73 2 1 1 2", [2, 6, 1, 12, 2, 1, 1, 6, 12]),
            ("4 1459 2 1 1 4", [2, 12, 1, 24, 4, 1, 2, 10, 18]),
            ("8 8388593 3 1 1 9", [4, 27, 2, 54, 9, 2, 3, 22, 39]),
            ("8 2147483647 7 1 2 15", [6, 84, 2, 280, 28, 3, 4, 62, 198]),
            ("2 2147483647 120 2 2 120", [30, 2880, 15, 7200, 480, 15, 4, 2430, 3105]),
            ("4 467424413 1201 1 1 2402", [602, 14412, 301, 28824, 4804, 301, 4, 10210, 16218]),
        ] {
            let set: Parameters = line.parse().unwrap();
            let got = [
                set.secret_key_len(),
                set.public_key_len(),
                set.message_len(),
                set.ciphertext_len(),
                set.element_len(),
                set.small_len(),
                set.coefficient_len(),
                set.keygen_fixed_octets(),
                set.encryption_fixed_octets(),
            ];
            assert_eq!(got, lengths, "{line}");
            assert_eq!(set.work_words(), 8 * set.places());

            let second = set.with_edition(2).unwrap();
            assert_eq!((second.lengths, second.bound, second.headroom), (set.lengths, set.bound, set.headroom));
            assert_eq!(second.keygen_fixed_octets(), set.keygen_fixed_octets() + set.element_len());
            assert_eq!(second.encryption_fixed_octets(), set.encryption_fixed_octets());
        }
    }

    #[test]
    fn the_blank_set_is_the_accepted_one() {
        for edition in [1, 2] {
            let set = Parameters::try_from([8, 2147483647, 7, 1, 2, 15, edition]).unwrap();
            let accepted = Parameters::try_from([8, 2147483647, 7, 1, 2, 0, edition]).unwrap();
            let blank = set.blank();
            assert_eq!(blank, accepted);
            assert_eq!(blank.lengths, accepted.lengths);
            assert_eq!((blank.bound, blank.headroom), (accepted.bound, accepted.headroom));
            assert!(blank.is_blank() && !set.is_blank());
        }
    }

    /// `==` compares seven numbers; what meets in one call must agree in all but the edition.
    #[test]
    fn sets_that_differ_in_the_edition_alone() {
        let set = Parameters::new(4, 65521, 2, 1, 1, 4).unwrap();
        let second = set.with_edition(2).unwrap();
        assert_ne!(set, second);
        assert_eq!(second.with_edition(1), Ok(set));
        assert_eq!((set.same(&second), second.same(&set)), (Ok(()), Ok(())));
        for other in ["8 65521 2 1 1 3", "4 65537 2 1 1 4", "4 65521 3 1 1 4", "4 65521 2 1 1 2"] {
            let other: Parameters = other.parse().unwrap();
            assert_eq!(
                (second.same(&other), other.same(&second)),
                (Err(Error::DifferentSets), Err(Error::DifferentSets))
            );
        }
        let shown = "Parameters { l: 4, q: 65521, n: 2, dx: 1, dr: 1, mlen: 4, edition: 2 }";
        assert_eq!(format!("{second:?}"), shown);
    }
}
