//! Worked octets, sets and calls that several of the tests share; each of them uses a part.

#![allow(dead_code)]

use reference::monomials;
use reference::prng::Prng;
use reference::set::set;
use reference::*;

/// Set A of the worked list.
pub const A: Set = set(4, 1459, 2, 1, 1, 4);

/// The draws below q of worked case 2, after its secret.
pub const TERMS: [u8; 8] = [0x05, 0x00, 0x07, 0x00, 0x64, 0x00, 0x01, 0x00];

/// The keys of worked case 2.
pub const SECRET_KEY: [u8; 2] = [0x09, 0x04];
pub const PUBLIC_KEY: [u8; 12] = [5, 0, 7, 0, 0x64, 0, 1, 0, 0x9F, 5, 0x3E, 5];

/// The ciphertext of worked case 3.
pub const CIPHERTEXT: [u8; 24] = [
    0x09, 0, 0x07, 0, 0x64, 0, 0x01, 0, 0, 0, 0x08, 0, 0xB2, 5, 0x4F, 5, 0x01, 0, 0x64, 0, 0x44, 5,
    0xAA, 5,
];

/// Every l, every pair of degrees, every qlen; small elements with unused bits and without.
pub const SETS: [Set; 18] = [
    set(2, 36, 2, 1, 1, 2),
    set(2, 251, 3, 1, 1, 1),
    set(2, 65_521, 8, 1, 1, 8),
    set(2, 65_537, 9, 1, 1, 9),
    set(2, 16_777_213, 7, 1, 2, 5),
    set(2, 2_147_483_647, 17, 2, 2, 13),
    A,
    set(4, 65_536, 5, 1, 1, 8),
    set(4, 16_777_213, 4, 1, 2, 8),
    set(4, 467_424_413, 40, 1, 1, 80),
    set(8, 65_521, 2, 1, 1, 6),
    set(8, 1_048_577, 3, 1, 1, 9),
    set(8, 1_073_741_825, 6, 2, 2, 18),
    set(8, 2_147_483_646, 8, 2, 1, 24),
    set(8, 1_048_573, 9, 1, 1, 27),
    set(16, 2_147_483_647, 2, 2, 2, 8),
    set(16, 2_147_483_647, 5, 1, 2, 20),
    set(16, 16_777_215, 8, 1, 1, 32),
];

/// These sets in both editions.
pub fn in_both_editions(sets: &[Set]) -> Vec<Set> {
    let both = |set: &Set| [set.in_edition(1), set.in_edition(2)];
    sets.iter().flat_map(both).collect()
}

/// The numbers that leave the work words: those tested up to the lengths, in their order.
pub const LEAVE_WORK: [u32; 7] = [1, 2, 3, 4, 5, 18, 6];

/// Work words that held 7 before a call that ended with this number.
pub fn assert_work_after(number: u32, work: &[u32]) {
    let wanted = if LEAVE_WORK.contains(&number) { 7 } else { 0 };
    assert!(work.iter().all(|&x| x == wanted), "{number}");
}

/// Octets used, groups and elements dropped, as they are before a call.
pub const OLD: [u64; 3] = [99, 77, 55];

/// What a call of keygen gives: the number, both keys, and the octets used with the groups and the
/// elements dropped.
pub type Given = (u32, Vec<u8>, Vec<u8>, [u64; 3]);

/// Makes keys into marked buffers of these lengths: secret key, public key, work words.
pub fn keys_of_lengths(set: Set, random: &[u8], lengths: [usize; 3]) -> Given {
    let mut secret_key = vec![0xAA; lengths[0]];
    let mut public_key = vec![0xAA; lengths[1]];
    let mut work = vec![7; lengths[2]];
    let [mut used, mut groups, mut elements] = OLD;
    let number = keygen(
        set,
        random,
        &mut secret_key,
        &mut public_key,
        &mut work,
        &mut used,
        &mut groups,
        &mut elements,
    );
    assert_work_after(number, &work);
    (number, secret_key, public_key, [used, groups, elements])
}

/// The lengths that `keys_of_lengths` takes, where they are right; the set is accepted.
pub fn lengths_of_keys(set: Set) -> [usize; 3] {
    [
        set.secret_key_octets(),
        set.public_key_octets(),
        set.work_words(),
    ]
}

/// Makes keys into marked buffers; the lengths are right and the set is accepted.
pub fn keys(set: Set, random: &[u8]) -> Given {
    keys_of_lengths(set, random, lengths_of_keys(set))
}

/// What keygen gives where the octets end too early.
pub fn exhausted(set: Set) -> Given {
    let [secret_key, public_key] =
        [set.secret_key_octets(), set.public_key_octets()].map(|length| vec![0xAA; length]);
    (9, secret_key, public_key, OLD)
}

/// The draws below q of a run for keys: every key element, in edition 1 without the constant.
pub fn draws_below_q(set: Set) -> usize {
    let elements = match set.edition {
        1 => monomials::count(set.dx) - 1,
        _ => monomials::count(set.dx),
    };
    elements * set.places()
}

/// 2 * ceil(n * b / 8) and qlen for each draw below q, and qlen for each group dropped,
/// ceil(n * b / 8) for each element.
pub fn octets_used(set: Set, groups: u64, elements: u64) -> u64 {
    let (qlen, small) = (set.qlen() as u64, set.small_octets() as u64);
    2 * small + qlen * draws_below_q(set) as u64 + qlen * groups + small * elements
}

/// Up to five elements, each of zeros or random, then random octets.
pub fn octets_with_zeros(set: Set, prng: &mut Prng) -> Vec<u8> {
    let mut random = Vec::new();
    for _ in 0..prng.below(6) {
        match prng.below(2) {
            0 => random.extend(vec![0; set.small_octets()]),
            _ => random.extend(prng.octets(set.small_octets())),
        }
    }
    random.extend(prng.octets_for(set));
    random
}

/// The numbers of keygen, the zero test, encrypt and decrypt with buffers of these sizes (secret
/// key, public key, message, ciphertext, work words), every given octet bad and no random octets.
/// Nothing but the work words is touched.
pub fn numbers_of_bad_calls(set: Set, sizes: [usize; 5]) -> [u32; 4] {
    let octets = [0, 1, 2, 3].map(|i| vec![0xEE; sizes[i]]);
    let [mut sk, mut pk, mut m, mut c] = octets.clone();
    let mut work = [(); 4].map(|()| vec![7; sizes[4]]);
    let [of_keygen, of_is_zero, of_encrypt, of_decrypt] = &mut work;
    let ([mut used, mut groups, mut elements], mut zero) = (OLD, 33);
    let numbers = [
        keygen(
            set,
            &[],
            &mut sk,
            &mut pk,
            of_keygen,
            &mut used,
            &mut groups,
            &mut elements,
        ),
        is_zero(set, &sk, &pk, of_is_zero, &mut zero),
        encrypt(
            set,
            &pk,
            &m,
            &[],
            &mut c,
            of_encrypt,
            &mut used,
            &mut groups,
        ),
        decrypt(set, &sk, &c, &mut m, of_decrypt),
    ];
    for (number, words) in numbers.into_iter().zip(work) {
        assert_work_after(number, &words);
    }
    assert_eq!(([used, groups, elements], zero), (OLD, 33));
    assert_eq!([sk, pk, m, c], octets);
    numbers
}
