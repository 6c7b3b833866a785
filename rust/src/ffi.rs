//! The C interface of libgiophantus.a, and the only unsafe code of this package.
//!
//! Each function here is a safe one over slices and references, whatever numbers and octets it is given: the library
//! judges every argument itself and refuses by number. What the library asks of a caller (include/giophantus.h) and
//! cannot judge is what the types of Rust give:
//!
//! - POINTERS: a slice's pointer is not null (empty or not) and aligned, and its length is that of the memory behind it,
//!   initialised; the same holds for references to numbers.
//! - NO OVERLAP: what the library writes comes in as `&mut`, so it overlaps no other argument.
//! - NOTHING KEPT: the library keeps no state, so no pointer outlives the call, and calls from several threads do not
//!   meet.

use crate::error::Error;
use crate::random::RandomUse;

/// The numbers of a set, as the library takes them: the C struct `giophantus_set`, by value.
#[repr(C)]
#[derive(Clone, Copy, Debug, PartialEq, Eq)]
pub(crate) struct Numbers {
    pub l: u32,
    pub q: u32,
    pub n: u32,
    pub dx: u32,
    pub dr: u32,
    pub mlen: u32,
    pub edition: u32,
}

impl From<[u32; 7]> for Numbers {
    fn from([l, q, n, dx, dr, mlen, edition]: [u32; 7]) -> Self {
        Numbers { l, q, n, dx, dr, mlen, edition }
    }
}

impl From<Numbers> for [u32; 7] {
    fn from(Numbers { l, q, n, dx, dr, mlen, edition }: Numbers) -> Self {
        [l, q, n, dx, dr, mlen, edition]
    }
}

/// The lengths of a set: octets, and words of work.
#[derive(Clone, Copy, Debug, Default, PartialEq, Eq)]
pub(crate) struct Lengths {
    pub secret_key: usize,
    pub public_key: usize,
    pub message: usize,
    pub ciphertext: usize,
    pub work: usize,
}

#[rustfmt::skip]
extern "C" {
    fn giophantus_limits(set: Numbers, bound: *mut u32, headroom: *mut u32) -> u32;
    fn giophantus_lengths(
        set: Numbers,
        secret_key: *mut u64, public_key: *mut u64, message: *mut u64, ciphertext: *mut u64, work: *mut u64,
    ) -> u32;
    fn giophantus_keygen(
        set: Numbers,
        random: *const u8, random_len: usize, secret_key: *mut u8, secret_key_len: usize,
        public_key: *mut u8, public_key_len: usize, work: *mut u32, work_len: usize,
        used: *mut u64, dropped_groups: *mut u64, dropped_elements: *mut u64,
    ) -> u32;
    fn giophantus_is_zero(
        set: Numbers,
        secret_key: *const u8, secret_key_len: usize, public_key: *const u8, public_key_len: usize,
        work: *mut u32, work_len: usize, zero: *mut u32,
    ) -> u32;
    fn giophantus_encrypt(
        set: Numbers,
        public_key: *const u8, public_key_len: usize, message: *const u8, message_len: usize,
        random: *const u8, random_len: usize, ciphertext: *mut u8, ciphertext_len: usize,
        work: *mut u32, work_len: usize, used: *mut u64, dropped_groups: *mut u64,
    ) -> u32;
    fn giophantus_add(
        set: Numbers,
        a: *const u8, a_len: usize, b: *const u8, b_len: usize, sum: *mut u8, sum_len: usize,
    ) -> u32;
    fn giophantus_decrypt(
        set: Numbers,
        secret_key: *const u8, secret_key_len: usize, ciphertext: *const u8, ciphertext_len: usize,
        message: *mut u8, message_len: usize, work: *mut u32, work_len: usize,
    ) -> u32;
    fn giophantus_multiply_add(
        set: Numbers,
        a: *const u32, a_len: usize, b: *const u32, b_len: usize, c: *mut u32, c_len: usize,
    ) -> u32;
}

/// Success or the refusal with this number.
fn accepted(number: u32) -> Result<(), Error> {
    Error::from_number(number).map_or(Ok(()), Err)
}

/// The bound and the headroom.
pub(crate) fn limits(set: Numbers) -> Result<(u32, u32), Error> {
    let (mut bound, mut headroom) = (0, 0);
    // SAFETY: POINTERS and NO OVERLAP, both to locals of this function; NOTHING KEPT.
    accepted(unsafe { giophantus_limits(set, &mut bound, &mut headroom) })?;
    Ok((bound, headroom))
}

/// The lengths of keys, messages, ciphertexts and work. None passes 2^20 for an accepted set.
pub(crate) fn lengths(set: Numbers) -> Result<Lengths, Error> {
    let (mut secret_key, mut public_key, mut message, mut ciphertext, mut work) = (0, 0, 0, 0, 0);
    // SAFETY: POINTERS and NO OVERLAP, all to locals of this function; NOTHING KEPT.
    accepted(unsafe {
        giophantus_lengths(set, &mut secret_key, &mut public_key, &mut message, &mut ciphertext, &mut work)
    })?;
    Ok(Lengths {
        secret_key: secret_key as usize,
        public_key: public_key as usize,
        message: message as usize,
        ciphertext: ciphertext as usize,
        work: work as usize,
    })
}

/// Keys from random octets; answers what was used of them.
pub(crate) fn keygen(
    set: Numbers,
    random: &[u8],
    secret_key: &mut [u8],
    public_key: &mut [u8],
    work: &mut [u32],
) -> Result<RandomUse, Error> {
    let (mut used, mut dropped_groups, mut dropped_elements) = (0, 0, 0);
    // SAFETY: POINTERS; NO OVERLAP: secret_key, public_key and work are `&mut`, the numbers are locals; NOTHING KEPT.
    accepted(unsafe {
        giophantus_keygen(
            set,
            random.as_ptr(),
            random.len(),
            secret_key.as_mut_ptr(),
            secret_key.len(),
            public_key.as_mut_ptr(),
            public_key.len(),
            work.as_mut_ptr(),
            work.len(),
            &mut used,
            &mut dropped_groups,
            &mut dropped_elements,
        )
    })?;
    Ok(RandomUse {
        octets: used as usize,
        dropped_groups: dropped_groups as usize,
        dropped_elements: dropped_elements as usize,
    })
}

/// The zero test.
pub(crate) fn is_zero(set: Numbers, secret_key: &[u8], public_key: &[u8], work: &mut [u32]) -> Result<bool, Error> {
    let mut zero = 0;
    // SAFETY: POINTERS; NO OVERLAP: work is `&mut`, zero is a local; NOTHING KEPT.
    accepted(unsafe {
        giophantus_is_zero(
            set,
            secret_key.as_ptr(),
            secret_key.len(),
            public_key.as_ptr(),
            public_key.len(),
            work.as_mut_ptr(),
            work.len(),
            &mut zero,
        )
    })?;
    Ok(zero == 1)
}

/// A ciphertext from a message and random octets; answers what was used of them.
pub(crate) fn encrypt(
    set: Numbers,
    public_key: &[u8],
    message: &[u8],
    random: &[u8],
    ciphertext: &mut [u8],
    work: &mut [u32],
) -> Result<RandomUse, Error> {
    let (mut used, mut dropped_groups) = (0, 0);
    // SAFETY: POINTERS; NO OVERLAP: ciphertext and work are `&mut`, the numbers are locals; NOTHING KEPT.
    accepted(unsafe {
        giophantus_encrypt(
            set,
            public_key.as_ptr(),
            public_key.len(),
            message.as_ptr(),
            message.len(),
            random.as_ptr(),
            random.len(),
            ciphertext.as_mut_ptr(),
            ciphertext.len(),
            work.as_mut_ptr(),
            work.len(),
            &mut used,
            &mut dropped_groups,
        )
    })?;
    Ok(RandomUse { octets: used as usize, dropped_groups: dropped_groups as usize, dropped_elements: 0 })
}

/// The sum of two ciphertexts, which may be one.
pub(crate) fn add(set: Numbers, a: &[u8], b: &[u8], sum: &mut [u8]) -> Result<(), Error> {
    // SAFETY: POINTERS; NO OVERLAP: sum is `&mut`, and a and b, which are only read, may be one; NOTHING KEPT.
    accepted(unsafe { giophantus_add(set, a.as_ptr(), a.len(), b.as_ptr(), b.len(), sum.as_mut_ptr(), sum.len()) })
}

/// The message of a ciphertext.
pub(crate) fn decrypt(
    set: Numbers,
    secret_key: &[u8],
    ciphertext: &[u8],
    message: &mut [u8],
    work: &mut [u32],
) -> Result<(), Error> {
    // SAFETY: POINTERS; NO OVERLAP: message and work are `&mut`; NOTHING KEPT.
    accepted(unsafe {
        giophantus_decrypt(
            set,
            secret_key.as_ptr(),
            secret_key.len(),
            ciphertext.as_ptr(),
            ciphertext.len(),
            message.as_mut_ptr(),
            message.len(),
            work.as_mut_ptr(),
            work.len(),
        )
    })
}

/// a × b + c into c; a and b may be one.
pub(crate) fn multiply_add(set: Numbers, a: &[u32], b: &[u32], c: &mut [u32]) -> Result<(), Error> {
    // SAFETY: POINTERS; NO OVERLAP: c is `&mut`, and a and b, which are only read, may be one; NOTHING KEPT.
    accepted(unsafe { giophantus_multiply_add(set, a.as_ptr(), a.len(), b.as_ptr(), b.len(), c.as_mut_ptr(), c.len()) })
}

/// A conversion from octets to words and the one back: the C functions and a safe function over each.
macro_rules! conversions {
    ($($c_from:ident $c_to:ident, $from:ident $to:ident: $what:literal;)*) => {
        #[rustfmt::skip]
        extern "C" {
            $(
                fn $c_from(
                    set: Numbers,
                    octets: *const u8, octets_len: usize, words: *mut u32, words_len: usize,
                ) -> u32;
                fn $c_to(
                    set: Numbers,
                    words: *const u32, words_len: usize, octets: *mut u8, octets_len: usize,
                ) -> u32;
            )*
        }
        $(
            #[doc = concat!("The words of ", $what, ".")]
            pub(crate) fn $from(
                set: Numbers,
                octets: &[u8],
                words: &mut [u32],
            ) -> Result<(), Error> {
                let (from, from_len) = (octets.as_ptr(), octets.len());
                let (to, to_len) = (words.as_mut_ptr(), words.len());
                // SAFETY: POINTERS; NO OVERLAP: words is `&mut`; NOTHING KEPT.
                accepted(unsafe { $c_from(set, from, from_len, to, to_len) })
            }

            #[doc = concat!("The octets of ", $what, ".")]
            pub(crate) fn $to(
                set: Numbers,
                words: &[u32],
                octets: &mut [u8],
            ) -> Result<(), Error> {
                let (from, from_len) = (words.as_ptr(), words.len());
                let (to, to_len) = (octets.as_mut_ptr(), octets.len());
                // SAFETY: POINTERS; NO OVERLAP: octets is `&mut`; NOTHING KEPT.
                accepted(unsafe { $c_to(set, from, from_len, to, to_len) })
            }
        )*
    };
}

conversions! {
    giophantus_element_from_octets giophantus_element_to_octets,
        element_from_octets element_to_octets: "a ring element";
    giophantus_small_from_octets giophantus_small_to_octets,
        small_from_octets small_to_octets: "a small element";
    giophantus_secret_key_from_octets giophantus_secret_key_to_octets,
        secret_key_from_octets secret_key_to_octets: "a secret key";
    giophantus_public_key_from_octets giophantus_public_key_to_octets,
        public_key_from_octets public_key_to_octets: "a public key";
    giophantus_ciphertext_from_octets giophantus_ciphertext_to_octets,
        ciphertext_from_octets ciphertext_to_octets: "a ciphertext";
}

#[cfg(test)]
mod tests {
    use super::*;

    const SET: Numbers = Numbers { l: 4, q: 1459, n: 2, dx: 1, dr: 1, mlen: 4, edition: 1 };

    /// The types never give multiply_add what it refuses.
    #[test]
    fn multiply_add_refuses_and_leaves_c() {
        let refused = |set: Numbers, a: &[u32], b: &[u32], c: &[u32]| {
            let mut after = c.to_vec();
            let answer = multiply_add(set, a, b, &mut after);
            assert_eq!(after, c);
            answer.err()
        };
        assert_eq!(refused(Numbers { q: 1455, ..SET }, &[1459], &[0, 0], &[3, 4]), Some(Error::Modulus));
        for (a, b, c) in [
            (&[1][..], &[1459, 0][..], &[3, 4][..]),
            (&[1459, 0], &[1, 2, 3], &[3, 4]),
            (&[1459, 0], &[5, 7], &[3]),
            (&[1459, 0], &[5, 7], &[3, 4, 5]),
        ] {
            assert_eq!(refused(SET, a, b, c), Some(Error::Length));
        }
        for (a, b, c) in [([1, 1459], [5, 7], [3, 4]), ([1, 2], [5, 1459], [3, 4]), ([1, 2], [5, 7], [3, 1459])] {
            assert_eq!(refused(SET, &a, &b, &c), Some(Error::Coefficient));
        }
    }

    /// What every call answers under a set, given octets and words of no length that it asks for, which are 6 under an
    /// accepted set. Each output must hold its old contents.
    fn answers(set: Numbers) -> Vec<Option<Error>> {
        let (octets, words) = ([0xFF; 5], [u32::MAX; 5]);
        let (mut out, mut more, mut to, mut work) = ([7; 5], [7; 5], [7; 5], [7; 5]);
        let mut given = vec![
            keygen(set, &octets, &mut out, &mut more, &mut work).err(),
            is_zero(set, &octets, &octets, &mut work).err(),
            encrypt(set, &octets, &octets, &octets, &mut out, &mut work).err(),
            decrypt(set, &octets, &octets, &mut out, &mut work).err(),
            add(set, &octets, &octets, &mut out).err(),
            multiply_add(set, &words, &words, &mut to).err(),
        ];
        let from_octets = [
            element_from_octets,
            small_from_octets,
            secret_key_from_octets,
            public_key_from_octets,
            ciphertext_from_octets,
        ];
        given.extend(from_octets.map(|convert| convert(set, &octets, &mut to).err()));
        let to_octets =
            [element_to_octets, small_to_octets, secret_key_to_octets, public_key_to_octets, ciphertext_to_octets];
        given.extend(to_octets.map(|convert| convert(set, &words, &mut out).err()));
        assert_eq!((out, more, to, work), ([7; 5], [7; 5], [7; 5], [7; 5]));
        given
    }

    /// 18 stands after 5 and before 6, in every call, and leaves the work words as 6 does.
    #[test]
    fn every_call_judges_the_edition() {
        for edition in [1, 2] {
            assert_eq!(answers(Numbers { edition, ..SET }), [Some(Error::Length); 16]);
        }
        for edition in [0, 3, u32::MAX] {
            let set = Numbers { edition, ..SET };
            assert_eq!(answers(set), [Some(Error::Edition); 16]);
            assert_eq!((limits(set), lengths(set)), (Err(Error::Edition), Err(Error::Edition)));
            for (unfit, error) in
                [(Numbers { mlen: 3, ..set }, Error::MessageSize), (Numbers { q: 1455, ..set }, Error::Modulus)]
            {
                assert_eq!(answers(unfit), [Some(error); 16]);
                assert_eq!((limits(unfit), lengths(unfit)), (Err(error), Err(error)));
            }
        }
    }

    /// Past the length test the work words are zero: the octets that are missing are those of the constant.
    #[test]
    fn exhausted_octets_leave_zero_work_words() {
        let random = [9, 4, 5, 0, 7, 0, 0x64, 0, 1, 0, 1, 0, 2, 0];
        for len in 10..=14 {
            let (mut secret_key, mut public_key, mut work) = ([7; 2], [7; 12], [7; 16]);
            let set = Numbers { edition: 2, ..SET };
            let answer = keygen(set, &random[..len], &mut secret_key, &mut public_key, &mut work);
            assert_eq!(work, [0; 16]);
            if len < 14 {
                assert_eq!((answer, secret_key, public_key), (Err(Error::RandomExhausted), [7; 2], [7; 12]));
            } else {
                assert_eq!(answer.map(|used| used.octets), Ok(14));
                assert_eq!(secret_key, [9, 4]);
            }
        }
    }
}
