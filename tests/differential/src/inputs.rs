//! Arguments for the calls: coefficients, packed elements and random octets, made so that it is
//! known without the reference implementation how many octets a call uses.

use std::ops::Range;

use reference::monomials::count;
use reference::octets;
use reference::prng::Prng;
use reference::set::bit_length;
use reference::Set;

/// Numbers below a limit: anything, all at the top, none but a few, or a mixture with the limits.
pub fn below(limit: u32, length: usize, prng: &mut Prng) -> Vec<u32> {
    let top = limit - 1;
    let style = prng.below(8);
    (0..length)
        .map(|_| match style {
            0 => top,
            1 => top * u32::from(prng.below(length as u64) == 0),
            2 | 3 => [0, 1, top - 1, top][prng.below(4) as usize],
            _ => prng.below(u64::from(limit)) as u32,
        })
        .collect()
}

/// The octets of this many coefficients below q.
pub fn coefficients(set: Set, length: usize, prng: &mut Prng) -> Vec<u8> {
    octets::numbers_to_octets(set.qlen(), &below(set.q, length, prng))
}

/// A packed small element.
pub fn small(set: Set, prng: &mut Prng) -> Vec<u8> {
    octets::pack(
        set.b(),
        &below(set.l, set.places(), prng),
        set.small_octets(),
    )
}

/// The bits of a packed element's top coefficient, that of t^(n - 1).
pub fn top_bits(set: Set) -> Range<usize> {
    let b = set.b() as usize;
    (set.places() - 1) * b..set.places() * b
}

/// The top coefficient of a packed element.
pub fn top(set: Set, packed: &[u8]) -> u32 {
    let bit = |at: usize| u32::from(packed[at / 8] >> (at % 8) & 1);
    top_bits(set).rev().fold(0, |top, at| 2 * top + bit(at))
}

/// The packed element with another top coefficient.
pub fn with_top(set: Set, packed: &[u8], number: u32) -> Vec<u8> {
    let mut found = packed.to_vec();
    for (k, at) in top_bits(set).enumerate() {
        found[at / 8] &= !(1 << (at % 8));
        found[at / 8] |= ((number >> k & 1) as u8) << (at % 8);
    }
    found
}

/// The packed element, with a top coefficient that isn't zero: its own, or else one that is made from the other
/// coefficients. It takes nothing from the run's sequence, so that the known answers of before document 02's Q-3 stay
/// the same.
pub fn of_full_degree(set: Set, packed: &[u8]) -> Vec<u8> {
    let sum: u32 = packed.iter().map(|&octet| u32::from(octet)).sum();
    match top(set, packed) {
        0 => with_top(set, packed, 1 + sum % (set.l - 1)),
        _ => packed.to_vec(),
    }
}

/// A packed element of a secret key.
pub fn secret_element(set: Set, prng: &mut Prng) -> Vec<u8> {
    of_full_degree(set, &small(set, prng))
}

pub fn secret_key(set: Set, prng: &mut Prng) -> Vec<u8> {
    [secret_element(set, prng), secret_element(set, prng)].concat()
}

pub fn public_key(set: Set, prng: &mut Prng) -> Vec<u8> {
    coefficients(set, set.public_key_words(), prng)
}

pub fn ciphertext(set: Set, prng: &mut Prng) -> Vec<u8> {
    coefficients(set, set.ciphertext_words(), prng)
}

pub fn message(set: Set, prng: &mut Prng) -> Vec<u8> {
    let kept = (set.mlen / set.b()) as usize;
    octets::pack(set.b(), &below(set.l, kept, prng), set.message_octets())
}

/// A group of qlen octets that a draw reads as `number`: bits past the bit length of q are garbage.
pub fn group(set: Set, number: u32, prng: &mut Prng) -> Vec<u8> {
    let garbage = prng.number() << bit_length(set.q);
    let whole = garbage | u64::from(number);
    whole.to_le_bytes()[..set.qlen()].to_vec()
}

/// A group that a draw drops: q, the largest number of q's bit length, or one between.
pub fn dropped_group(set: Set, prng: &mut Prng) -> Vec<u8> {
    let top = ((1u64 << bit_length(set.q)) - 1) as u32;
    let number = match prng.below(4) {
        0 => set.q,
        1 => top,
        _ => set.q + prng.below(u64::from(top - set.q) + 1) as u32,
    };
    group(set, number, prng)
}

/// Octets for `length` draws below q. Before each kept group, each further group is dropped with a
/// chance of `eighths` in eight.
pub fn draws(set: Set, length: usize, eighths: u64, prng: &mut Prng) -> Vec<u8> {
    let mut found = Vec::new();
    for number in below(set.q, length, prng) {
        while prng.below(8) < eighths {
            found.extend(dropped_group(set, prng));
        }
        found.extend(group(set, number, prng));
    }
    found
}

/// Octets for a draw of a small element: unused bits are garbage.
pub fn small_draw(set: Set, prng: &mut Prng) -> Vec<u8> {
    let mut packed = small(set, prng);
    let used_bits = set.places() * set.b() as usize;
    for bit in used_bits..8 * packed.len() {
        packed[bit / 8] |= (prng.below(2) as u8) << (bit % 8);
    }
    packed
}

/// How many groups of eight are dropped: none, half, or seven.
fn dropping(prng: &mut Prng) -> u64 {
    [0, 0, 4, 7][prng.below(4) as usize]
}

/// The elements that keygen draws below q: those of the public key but the constant, and in edition 2 one that it throws
/// away.
pub fn key_elements(set: Set) -> usize {
    count(set.dx) - 1 + usize::from(set.edition == 2)
}

/// Two small elements with any top coefficients, and the draws below q of keygen.
pub fn keygen_parts(set: Set, prng: &mut Prng) -> [Vec<u8>; 3] {
    let eighths = dropping(prng);
    let coefficients = key_elements(set) * set.places();
    [
        small_draw(set, prng),
        small_draw(set, prng),
        draws(set, coefficients, eighths, prng),
    ]
}

/// Exactly the random octets that keygen uses. Behind a small element that is dropped stands the same with another
/// top coefficient.
pub fn keygen_random(set: Set, prng: &mut Prng) -> Vec<u8> {
    let [x, y, coefficients] = keygen_parts(set, prng);
    let kept = |drawn: Vec<u8>| match top(set, &drawn) {
        0 => [drawn.clone(), of_full_degree(set, &drawn)].concat(),
        _ => drawn,
    };
    [kept(x), kept(y), coefficients].concat()
}

/// Exactly the random octets that encrypt uses, and how many of them are for r.
pub fn encrypt_random(set: Set, prng: &mut Prng) -> (Vec<u8>, usize) {
    let eighths = dropping(prng);
    let mut found = draws(set, count(set.dr) * set.places(), eighths, prng);
    let for_r = found.len();
    for _ in 0..count(set.d()) {
        found.extend(small_draw(set, prng));
    }
    (found, for_r)
}
