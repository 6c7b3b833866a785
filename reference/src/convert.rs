//! The conversions between octets and coefficient words.

use crate::octets;
use crate::refusal;
use crate::set::{check_lengths, Length, Set};

/// The lengths of a kind: its words, and its octets.
type Lengths = (Length, Length);

const ELEMENT: Lengths = (Set::places, Set::element_octets);
const PUBLIC_KEY: Lengths = (Set::public_key_words, Set::public_key_octets);
const CIPHERTEXT: Lengths = (Set::ciphertext_words, Set::ciphertext_octets);
const SMALL: Lengths = (Set::places, Set::small_octets);
const SECRET_KEY: Lengths = (Set::secret_key_words, Set::secret_key_octets);

/// Coefficients below q, from octets to words: refusals 1 to 5, 18, 6, 8.
fn from_octets(set: Set, kind: Lengths, octets: &[u8], words: &mut [u32]) -> u32 {
    let number = check_lengths(set, [(words.len(), kind.0), (octets.len(), kind.1)]);
    if number != refusal::NONE {
        return number;
    }
    let numbers = octets::numbers_from_octets(set.qlen(), octets);
    if numbers.iter().any(|&x| x >= set.q) {
        return refusal::COEFFICIENT;
    }
    words.copy_from_slice(&numbers);
    refusal::NONE
}

/// Coefficients below q, from words to octets: refusals 1 to 5, 18, 6, 8.
fn to_octets(set: Set, kind: Lengths, words: &[u32], octets: &mut [u8]) -> u32 {
    let number = check_lengths(set, [(words.len(), kind.0), (octets.len(), kind.1)]);
    if number != refusal::NONE {
        return number;
    }
    if words.iter().any(|&x| x >= set.q) {
        return refusal::COEFFICIENT;
    }
    octets.copy_from_slice(&octets::numbers_to_octets(set.qlen(), words));
    refusal::NONE
}

/// An element of R_q, from octets to words.
pub fn element_from_octets(set: Set, octets: &[u8], words: &mut [u32]) -> u32 {
    from_octets(set, ELEMENT, octets, words)
}

/// An element of R_q, from words to octets.
pub fn element_to_octets(set: Set, words: &[u32], octets: &mut [u8]) -> u32 {
    to_octets(set, ELEMENT, words, octets)
}

/// A public key, from octets to words.
pub fn public_key_from_octets(set: Set, octets: &[u8], words: &mut [u32]) -> u32 {
    from_octets(set, PUBLIC_KEY, octets, words)
}

/// A public key, from words to octets.
pub fn public_key_to_octets(set: Set, words: &[u32], octets: &mut [u8]) -> u32 {
    to_octets(set, PUBLIC_KEY, words, octets)
}

/// A ciphertext, from octets to words.
pub fn ciphertext_from_octets(set: Set, octets: &[u8], words: &mut [u32]) -> u32 {
    from_octets(set, CIPHERTEXT, octets, words)
}

/// A ciphertext, from words to octets.
pub fn ciphertext_to_octets(set: Set, words: &[u32], octets: &mut [u8]) -> u32 {
    to_octets(set, CIPHERTEXT, words, octets)
}

/// Packed small elements, each with its own unused bits, from octets to words: refusals 1 to 5, 18,
/// 6, 7. Number 8 cannot occur, since b bits hold only numbers below l.
fn small_elements_from_octets(set: Set, kind: Lengths, octets: &[u8], words: &mut [u32]) -> u32 {
    let number = check_lengths(set, [(words.len(), kind.0), (octets.len(), kind.1)]);
    if number != refusal::NONE {
        return number;
    }
    let used_bits = set.places() * set.b() as usize;
    let mut packed = octets.chunks(set.small_octets());
    if !packed.all(|one| octets::unused_bits_are_zero(one, used_bits)) {
        return refusal::PADDING;
    }
    let packed = octets.chunks(set.small_octets());
    for (one, place) in packed.zip(words.chunks_mut(set.places())) {
        place.copy_from_slice(&octets::unpack(set.b(), one, set.places()));
    }
    refusal::NONE
}

/// Small elements, from words to packed octets: refusals 1 to 5, 18, 6, 8.
fn small_elements_to_octets(set: Set, kind: Lengths, words: &[u32], octets: &mut [u8]) -> u32 {
    let number = check_lengths(set, [(words.len(), kind.0), (octets.len(), kind.1)]);
    if number != refusal::NONE {
        return number;
    }
    if words.iter().any(|&x| x >= set.l) {
        return refusal::COEFFICIENT;
    }
    let packed = octets.chunks_mut(set.small_octets());
    for (one, place) in words.chunks(set.places()).zip(packed) {
        place.copy_from_slice(&octets::pack(set.b(), one, set.small_octets()));
    }
    refusal::NONE
}

/// A packed small element, from octets to words.
pub fn small_from_octets(set: Set, octets: &[u8], words: &mut [u32]) -> u32 {
    small_elements_from_octets(set, SMALL, octets, words)
}

/// A small element, from words to packed octets.
pub fn small_to_octets(set: Set, words: &[u32], octets: &mut [u8]) -> u32 {
    small_elements_to_octets(set, SMALL, words, octets)
}

/// A secret key, from octets to words: u_x, then u_y.
pub fn secret_key_from_octets(set: Set, octets: &[u8], words: &mut [u32]) -> u32 {
    small_elements_from_octets(set, SECRET_KEY, octets, words)
}

/// A secret key, from the words of u_x and then of u_y to octets.
pub fn secret_key_to_octets(set: Set, words: &[u32], octets: &mut [u8]) -> u32 {
    small_elements_to_octets(set, SECRET_KEY, words, octets)
}
