//! Messages: counts, packed.

use crate::error::Error;
use crate::octets::{judged_octets, judged_octets_equal, judged_octets_hidden, WELL_FORMED};
use crate::parameters::{AnySet, FixedSet, Parameters};

/// A message of mlen bits: mlen / b counts, packed. `Debug` doesn't print it.
///
/// From octets: refusal 6 for a wrong length, 7 for a non-zero bit from bit mlen on.
///
/// A blank field is a message of no counts under a set with mlen 0 ([`Parameters::blank`]); a count of zero is a finding
/// and something else.
///
/// ```
/// use giophantus::{Error, Message, Parameters};
///
/// let set = Parameters::new(4, 1459, 2, 1, 1, 4)?;
/// let message = Message::from_counts(&set, &[2, 3])?;
/// assert_eq!(message.as_ref(), [0x0E]);
/// assert_eq!(Message::try_from((&set, &[0x0E][..]))?.to_counts(), [2, 3]);
/// assert_eq!(Message::try_from((&set, &[0x1E][..])), Err(Error::Padding));
/// # Ok::<(), Error>(())
/// ```
pub struct Message<S = AnySet> {
    set: Parameters<S>,
    octets: Vec<u8>,
}

judged_octets!(Message);
judged_octets_equal!(Message);
judged_octets_hidden!(Message);

impl<S> Message<S> {
    fn judge(set: &Parameters<S>, octets: &[u8]) -> Result<(), Error> {
        if octets.len() != set.message_len() {
            return Err(Error::Length);
        }
        let coefficients = coefficients(set, octets)?;
        // A bit from bit mlen on stands in a later coefficient, or past the last one, which was refused above.
        if coefficients[set.counts_len()..].iter().all(|&coefficient| coefficient == 0) {
            Ok(())
        } else {
            Err(Error::Padding)
        }
    }

    /// From counts: refusal 6 where they aren't exactly mlen / b, 8 where one is ℓ or more. None is filled in: a count
    /// that is missing is not zero.
    pub fn from_counts(set: &Parameters<S>, counts: &[u32]) -> Result<Self, Error> {
        if counts.len() != set.counts_len() {
            return Err(Error::Length);
        }
        let mut coefficients = counts.to_vec();
        coefficients.resize(set.places(), 0);
        let mut octets = set.small_to_octets(&coefficients)?;
        octets.truncate(set.message_len());
        Ok(Self::judged(*set, octets))
    }

    /// The counts.
    pub fn to_counts(&self) -> Vec<u32> {
        let mut counts = coefficients(&self.set, &self.octets).expect(WELL_FORMED);
        counts.truncate(self.set.counts_len());
        counts
    }

    /// Whether it is a blank field: its set has mlen 0.
    pub fn is_blank(&self) -> bool {
        self.set.is_blank()
    }
}

/// The n coefficients of a message of the right length.
fn coefficients<S>(set: &Parameters<S>, message: &[u8]) -> Result<Vec<u32>, Error> {
    let mut octets = message.to_vec();
    octets.resize(set.small_len(), 0);
    set.small_from_octets(&octets)
}
