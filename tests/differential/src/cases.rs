//! Octets that the papers print, or that follow from what they print: set A of 01's worked list with its cases 2 and 3,
//! and cases of document 02's.

use reference::set::set;
use reference::Set;

pub const A: Set = set(4, 1459, 2, 1, 1, 4);

/// Case 2.
pub const KEY_RANDOM: [u8; 10] = [0x09, 0x04, 0x05, 0, 0x07, 0, 0x64, 0, 0x01, 0];
pub const SECRET_KEY: [u8; 2] = [0x09, 0x04];
pub const PUBLIC_KEY: [u8; 12] = [0x05, 0, 0x07, 0, 0x64, 0, 0x01, 0, 0x9F, 0x05, 0x3E, 0x05];

/// Case 3, with the message 0E.
pub const RANDOM: [u8; 18] = [
    0x01, 0, 0, 0, 0, 0, 0, 0, 0, 0, 0x01, 0, 0x01, 0, 0x08, 0x0F, 0, 0x09,
];
pub const CIPHERTEXT: [u8; 24] = [
    0x09, 0, 0x07, 0, 0x64, 0, 0x01, 0, 0, 0, 0x08, 0, 0xB2, 0x05, 0x4F, 0x05, 0x01, 0, 0x64, 0,
    0x44, 0x05, 0xAA, 0x05,
];

/// 1459, which is dropped where it is drawn, and refused where it is given.
pub const DROPPED_GROUP: [u8; 2] = [0xB3, 0x05];

/// What edition 2 draws behind case 2's octets and throws away: 1459, which is dropped, 1 and 2.
pub const THROWN: [u8; 6] = [0xB3, 0x05, 0x01, 0, 0x02, 0];

/// Random octets for the keys of case 2, with the octets used, the dropped groups and the dropped elements: 01 before
/// them; 00 before u_x, 03 and 02 before u_y and 1459 behind it.
pub const DROPPED_ELEMENTS: [(&[u8], [u64; 3]); 2] = [
    (
        &[0x01, 0x09, 0x04, 0x05, 0, 0x07, 0, 0x64, 0, 0x01, 0],
        [11, 0, 1],
    ),
    (
        &[
            0, 0x09, 0x03, 0x02, 0x04, 0xB3, 0x05, 0x05, 0, 0x07, 0, 0x64, 0, 0x01, 0,
        ],
        [15, 1, 3],
    ),
];

/// A secret key that decrypts case 3 or is tried as a zero of case 2's key.
pub struct GivenSecret {
    pub mlen: u32,
    pub octets: [u8; 2],
    /// Whether the first coefficient of the ciphertext or key is 1459.
    pub wrong_coefficient: bool,
    /// What decrypt answers, and is_zero.
    pub answers: [u32; 2],
}

impl GivenSecret {
    /// The ciphertext and the key.
    pub fn polynomials(&self) -> [Vec<u8>; 2] {
        [&CIPHERTEXT[..], &PUBLIC_KEY].map(|octets| match self.wrong_coefficient {
            true => [&DROPPED_GROUP, &octets[2..]].concat(),
            false => octets.to_vec(),
        })
    }
}

const fn given(
    mlen: u32,
    octets: [u8; 2],
    wrong_coefficient: bool,
    answers: [u32; 2],
) -> GivenSecret {
    GivenSecret {
        mlen,
        octets,
        wrong_coefficient,
        answers,
    }
}

/// With mlen 2 case 3 has a tail.
pub const GIVEN_SECRETS: [GivenSecret; 10] = [
    given(4, [0x09, 0x03], false, [14, 14]),
    given(4, [0x01, 0x04], false, [14, 14]),
    given(4, [0, 0], false, [14, 14]),
    given(2, [0x01, 0x04], false, [14, 14]),
    given(2, [0x09, 0x04], false, [10, 0]),
    given(4, [0x19, 0], true, [7, 7]),
    given(4, [0x19, 0], false, [7, 7]),
    given(4, [0x09, 0], true, [8, 8]),
    given(2, [0x09, 0], true, [8, 8]),
    given(4, [0x09, 0x04], true, [8, 8]),
];

/// With l 8, octets drawn for an element, and whether it is kept: of n 3 the top coefficient has two bits in the first
/// octet and one in the second, of n 2 the two highest bits aren't used.
pub const ELEMENTS: [(Set, &[u8], bool); 6] = [
    (set(8, 1_048_573, 3, 1, 1, 9), &[0xC0, 0x00], true),
    (set(8, 1_048_573, 3, 1, 1, 9), &[0x40, 0x00], true),
    (set(8, 1_048_573, 3, 1, 1, 9), &[0x00, 0x01], true),
    (set(8, 1_048_573, 3, 1, 1, 9), &[0x3F, 0xFE], false),
    (set(8, 1_048_573, 2, 1, 1, 6), &[0xC1], false),
    (set(8, 1_048_573, 2, 1, 1, 6), &[0x08], true),
];

/// Random octets for keygen with such an element: two more that are kept and enough for the rest follow.
pub fn begun_with(element: &[u8]) -> Vec<u8> {
    [element, &[0xFF; 4], &[0; 40]].concat()
}
