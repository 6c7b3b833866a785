//! Random octets: what a call used of them, and from a reader as many as a call will use, and not one more.

use std::io::Read;

use crate::error::Error;
use crate::parameters::Parameters;

/// What a call used of its random octets.
///
/// A draw below q takes a group of qlen octets ([`Parameters::coefficient_len`]). Where its number, modulo 2 to the bit
/// length of q, is q or more, the group is dropped and the next is taken. That is no fault: with q just above a power of
/// two nearly every second group is dropped, with q just below one hardly any.
///
/// Key generation draws u_x and u_y from ⌈n × b / 8⌉ octets each ([`Parameters::small_len`]). An element whose top
/// coefficient, that of t^(n - 1), is zero is dropped whole and the next octets are taken: one in ℓ. Encryption drops no
/// elements.
///
/// In edition 2 key generation goes on to draw what it throws away ([`Parameters::edition`]): these octets are used, and
/// groups that are dropped among them are counted.
///
/// `octets` is qlen × `dropped_groups` + ⌈n × b / 8⌉ × `dropped_elements` more than
/// [`Parameters::keygen_fixed_octets`] for keys, and than [`Parameters::encryption_fixed_octets`] for a ciphertext.
///
/// ```
/// let set = giophantus::Parameters::new(4, 1459, 2, 1, 1, 4)?;
/// // The first octet is the element 1 + 0t, which is dropped; u_x is 1 + 2t and u_y is t.
/// let used = set.keygen(&[0x01, 0x09, 0x04, 5, 0, 7, 0, 100, 0, 1, 0])?.used;
/// assert_eq!((used.octets, used.dropped_groups, used.dropped_elements), (11, 0, 1));
/// assert_eq!(used.octets, set.keygen_fixed_octets() + set.small_len() * used.dropped_elements);
/// # Ok::<(), giophantus::Error>(())
/// ```
///
/// ```
/// use giophantus::{Message, Parameters, PublicKey};
///
/// let set = Parameters::new(4, 1459, 2, 1, 1, 4)?;
/// let public_key = PublicKey::from_words(&set, &[5, 7, 100, 1, 1439, 1342])?;
/// let message = Message::from_counts(&set, &[2, 3])?;
/// // The first group is 1459, which isn't below q.
/// let random = [0xB3, 0x05, 1, 0, 0, 0, 0, 0, 0, 0, 0, 0, 1, 0, 1, 0, 8, 0x0F, 0, 9];
/// let used = public_key.encrypt(&message, &random)?.used;
/// assert_eq!(used.octets, 20);
/// assert_eq!(used.dropped_groups, 1);
/// assert_eq!(used.octets, set.encryption_fixed_octets() + set.coefficient_len() * used.dropped_groups);
/// # Ok::<(), giophantus::Error>(())
/// ```
#[non_exhaustive]
#[derive(Clone, Copy, Debug, PartialEq, Eq)]
pub struct RandomUse {
    /// The octets used, from the front, those of dropped groups and elements among them.
    pub octets: usize,
    /// The groups of qlen octets that were dropped.
    pub dropped_groups: usize,
    /// The elements of ⌈n × b / 8⌉ octets that were dropped; 0 for a ciphertext.
    pub dropped_elements: usize,
}

/// Of one reader about this many octets are read for one call at most: some 80 times what the largest sets need. A source
/// that gives nothing but octets that are dropped ends here, as exhausted. The documentation of `keygen_from` says it.
const MOST: usize = 1 << 22;

/// The draws of a call in turn: elements of a secret key, numbers below q, elements of the noise.
pub(crate) struct Draws {
    pub secret: usize,
    pub below_q: usize,
    pub noise: usize,
}

impl Draws {
    /// The octets that they use where nothing is dropped.
    pub fn fixed_octets<S>(&self, set: &Parameters<S>) -> usize {
        (self.secret + self.noise) * set.small_len() + self.below_q * set.coefficient_len()
    }
}

/// Reads what the draws will use. It reads less where the reader ends or passes [`MOST`]; the library then says that the
/// octets are exhausted.
pub(crate) fn read<S>(set: &Parameters<S>, draws: &Draws, mut source: impl Read) -> Result<Vec<u8>, Error> {
    let mut octets = Vec::new();
    let secret = |element: &[u8]| has_zero_top(set, element);
    let below_q = |group: &[u8]| is_too_large(set, group);
    if read_kept(&mut source, draws.secret, set.small_len(), secret, &mut octets)?
        && read_kept(&mut source, draws.below_q, set.coefficient_len(), below_q, &mut octets)?
    {
        read_more(&mut source, draws.noise * set.small_len(), &mut octets)?;
    }
    Ok(octets)
}

/// Reads pieces of `len` octets until `count` of them aren't dropped; says whether the reader had as many.
fn read_kept(
    source: &mut impl Read,
    count: usize,
    len: usize,
    is_dropped: impl Fn(&[u8]) -> bool,
    octets: &mut Vec<u8>,
) -> Result<bool, Error> {
    let mut missing = count;
    while missing > 0 {
        let start = octets.len();
        if start > MOST || !read_more(source, missing * len, octets)? {
            return Ok(false);
        }
        missing = octets[start..].chunks_exact(len).filter(|piece| is_dropped(piece)).count();
    }
    Ok(true)
}

/// Reads `count` octets behind those that are there; says whether the reader had as many.
fn read_more(source: &mut impl Read, count: usize, octets: &mut Vec<u8>) -> Result<bool, Error> {
    let got =
        source.by_ref().take(count as u64).read_to_end(octets).map_err(|error| Error::RandomSource(error.kind()))?;
    Ok(got == count)
}

// The library decides what is dropped; these two only say how many octets to read.

/// Will this packed element be dropped by a draw of u_x or u_y: is its coefficient of t^(n - 1) zero? Its b bits may
/// stand in two octets, and unused bits may stand behind them.
fn has_zero_top<S>(set: &Parameters<S>, element: &[u8]) -> bool {
    let b = set.b() as usize;
    let first = (set.places() - 1) * b;
    (first..first + b).all(|bit| element[bit / 8] >> (bit % 8) & 1 == 0)
}

/// Will this group of octets be dropped by a draw below q?
fn is_too_large<S>(set: &Parameters<S>, group: &[u8]) -> bool {
    let number = group.iter().rev().fold(0u64, |number, &octet| number << 8 | u64::from(octet));
    let bits = u32::BITS - set.q().leading_zeros();
    number % (1 << bits) >= u64::from(set.q())
}

#[cfg(test)]
mod tests {
    use super::*;

    fn set() -> Parameters {
        Parameters::new(4, 1459, 2, 1, 1, 4).unwrap()
    }

    #[test]
    fn groups_of_q_or_more_are_dropped() {
        let set = set();
        assert!(!is_too_large(&set, &[0xB2, 0x05])); // 1458
        assert!(is_too_large(&set, &[0xB3, 0x05])); // 1459
        assert!(!is_too_large(&set, &[0x01, 0x08])); // 2049, which is 1 modulo 2048
        assert!(is_too_large(&set, &[0xFF, 0xFF]));
    }

    /// With one bit set, each in turn, as the library's conversion has it; unused bits, which that refuses, don't count.
    #[test]
    fn elements_with_a_zero_top_coefficient_are_dropped() {
        for line in [
            "2 251 3 1 1 2",
            "4 1459 2 1 1 4",
            "4 2147483647 8 1 1 0",
            "8 8388593 3 1 1 9",
            "8 2147483647 8 1 1 0",
            "16 2147483647 3 1 1 0",
        ] {
            let set: Parameters = line.parse().unwrap();
            let mut kept = 0;
            for bit in 0..8 * set.small_len() {
                let mut element = vec![0; set.small_len()];
                element[bit / 8] = 1 << (bit % 8);
                let words = set.small_from_octets(&element).unwrap_or(vec![0; set.places()]);
                assert_eq!(has_zero_top(&set, &element), words.last() == Some(&0), "{set}: bit {bit}");
                kept += usize::from(!has_zero_top(&set, &element));
            }
            assert_eq!(kept, set.b() as usize, "{set}");
        }
    }

    #[test]
    fn reads_one_group_more_for_each_that_is_dropped() {
        let source: &[u8] = &[9, 0xB3, 5, 1, 0, 0xFF, 0xFF, 2, 0, 7, 8, 99, 99];
        let octets = read(&set(), &Draws { secret: 1, below_q: 2, noise: 2 }, source).unwrap();
        assert_eq!(octets, source[..11]);
    }

    /// 0xF3 is 3 + 0t with unused bits; those of the noise are never dropped.
    #[test]
    fn reads_one_element_more_for_each_that_is_dropped() {
        let source: &[u8] = &[0, 0xF3, 9, 1, 4, 5, 0, 0, 3, 99, 99];
        let octets = read(&set(), &Draws { secret: 2, below_q: 1, noise: 2 }, source).unwrap();
        assert_eq!(octets, source[..9]);
    }

    /// As many as the library says that it used, in both editions; 1459 stands before the first draw of the constant too.
    #[test]
    fn reads_what_each_edition_uses() {
        let source: &[u8] = &[0, 9, 4, 5, 0, 7, 0, 0xB3, 5, 0x64, 0, 1, 0, 0xB3, 5, 1, 0, 2, 0, 0xB3, 5];
        for (edition, octets) in [(1, 13), (2, 19)] {
            let set = set().with_edition(edition).unwrap();
            let mut rest = source;
            assert_eq!(set.keygen_from(&mut rest).unwrap().used, set.keygen(source).unwrap().used);
            assert_eq!(rest, &source[octets..]);
        }
    }

    #[test]
    fn an_endless_source_of_dropped_octets_comes_to_an_end() {
        for (octet, secret, below_q) in [(0xFF, 1, 1 << 16), (0, 2, 1)] {
            let octets = read(&set(), &Draws { secret, below_q, noise: 1 }, std::io::repeat(octet)).unwrap();
            assert!((MOST + 1..=MOST + (1 << 18)).contains(&octets.len()));
        }
    }

    #[test]
    fn a_reader_that_ends_gives_what_it_had() {
        // In the elements, which are all dropped, in the groups and in the noise.
        for had in [&[1, 2, 3][..], &[9, 2, 3], &[9, 2, 3, 4, 5, 6]] {
            assert_eq!(read(&set(), &Draws { secret: 1, below_q: 2, noise: 2 }, had).unwrap(), had);
        }
    }

    #[test]
    fn a_reader_that_fails_is_an_error() {
        struct Broken;
        impl Read for Broken {
            fn read(&mut self, _: &mut [u8]) -> std::io::Result<usize> {
                Err(std::io::ErrorKind::PermissionDenied.into())
            }
        }
        let failed = read(&set(), &Draws { secret: 1, below_q: 2, noise: 2 }, Broken);
        assert_eq!(failed, Err(Error::RandomSource(std::io::ErrorKind::PermissionDenied)));
    }
}
