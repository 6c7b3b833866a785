//! The C interface, each function wrapped so that its callers need nothing unsafe.
//!
//! The wrappers are `inline`: each is compiled only into the programs that call it, so that a
//! program links although the library lacks a function of another group.

#![allow(unsafe_code)]

use reference::Set;

/// The set as C has it, `giophantus_set`.
#[repr(C)]
struct CSet {
    l: u32,
    q: u32,
    n: u32,
    dx: u32,
    dr: u32,
    mlen: u32,
    edition: u32,
}

impl From<Set> for CSet {
    fn from(set: Set) -> Self {
        let Set {
            l,
            q,
            n,
            dx,
            dr,
            mlen,
            edition,
        } = set;
        CSet {
            l,
            q,
            n,
            dx,
            dr,
            mlen,
            edition,
        }
    }
}

/// Declares the functions of the interface, each with the set by value in front, and a wrapper for
/// each that takes the set and slices.
macro_rules! interface {
    ($($name:ident as $symbol:ident($($rest:tt)*);)*) => {
        $(interface!(@ $name $symbol [] [] [] $($rest)*);)*
    };
    // All arguments taken: the declaration and the wrapper.
    (@ $name:ident $symbol:ident [$($c:tt)*] [$($rust:tt)*] [$($pass:tt)*]) => {
        #[inline]
        #[allow(clippy::too_many_arguments)] // as many as the call has
        pub fn $name(set: Set, $($rust)*) -> u32 {
            #[link(name = "giophantus", kind = "static")]
            extern "C" {
                fn $symbol(set: CSet, $($c)*) -> u32;
            }
            // SAFETY: the function has this signature in C. Each pointer comes from a slice or a
            // reference that outlives the call and goes with that slice's length; it is never null
            // and, where the function writes, comes from an exclusive reference.
            unsafe { $symbol(set.into(), $($pass)*) }
        }
    };
    // One argument after another: a slice that is read, a slice that is written, a number.
    (@ $name:ident $symbol:ident [$($c:tt)*] [$($rust:tt)*] [$($pass:tt)*]
        $arg:ident: &[$t:ty] $(, $($rest:tt)*)?) => {
        interface!(@ $name $symbol
            [$($c)* $arg: *const $t, _: usize,]
            [$($rust)* $arg: &[$t],]
            [$($pass)* $arg.as_ptr(), $arg.len(),]
            $($($rest)*)?);
    };
    (@ $name:ident $symbol:ident [$($c:tt)*] [$($rust:tt)*] [$($pass:tt)*]
        $arg:ident: &mut [$t:ty] $(, $($rest:tt)*)?) => {
        interface!(@ $name $symbol
            [$($c)* $arg: *mut $t, _: usize,]
            [$($rust)* $arg: &mut [$t],]
            [$($pass)* $arg.as_mut_ptr(), $arg.len(),]
            $($($rest)*)?);
    };
    (@ $name:ident $symbol:ident [$($c:tt)*] [$($rust:tt)*] [$($pass:tt)*]
        $arg:ident: &mut $t:ty $(, $($rest:tt)*)?) => {
        interface!(@ $name $symbol
            [$($c)* $arg: *mut $t,]
            [$($rust)* $arg: &mut $t,]
            [$($pass)* $arg,]
            $($($rest)*)?);
    };
}

interface! {
    check as giophantus_check();
    limits as giophantus_limits(bound: &mut u32, headroom: &mut u32);
    lengths as giophantus_lengths(
        secret_key: &mut u64, public_key: &mut u64, message: &mut u64, ciphertext: &mut u64,
        work: &mut u64
    );
    keygen as giophantus_keygen(
        random: &[u8], secret_key: &mut [u8], public_key: &mut [u8], work: &mut [u32],
        used: &mut u64, dropped_groups: &mut u64, dropped_elements: &mut u64
    );
    is_zero as giophantus_is_zero(
        secret_key: &[u8], public_key: &[u8], work: &mut [u32], zero: &mut u32
    );
    encrypt as giophantus_encrypt(
        public_key: &[u8], message: &[u8], random: &[u8], ciphertext: &mut [u8],
        work: &mut [u32], used: &mut u64, dropped_groups: &mut u64
    );
    add as giophantus_add(a: &[u8], b: &[u8], sum: &mut [u8]);
    decrypt as giophantus_decrypt(
        secret_key: &[u8], ciphertext: &[u8], message: &mut [u8], work: &mut [u32]
    );
    multiply_add as giophantus_multiply_add(a: &[u32], b: &[u32], c: &mut [u32]);
    element_from_octets as giophantus_element_from_octets(octets: &[u8], words: &mut [u32]);
    element_to_octets as giophantus_element_to_octets(words: &[u32], octets: &mut [u8]);
    small_from_octets as giophantus_small_from_octets(octets: &[u8], words: &mut [u32]);
    small_to_octets as giophantus_small_to_octets(words: &[u32], octets: &mut [u8]);
    secret_key_from_octets as giophantus_secret_key_from_octets(octets: &[u8], words: &mut [u32]);
    secret_key_to_octets as giophantus_secret_key_to_octets(words: &[u32], octets: &mut [u8]);
    public_key_from_octets as giophantus_public_key_from_octets(octets: &[u8], words: &mut [u32]);
    public_key_to_octets as giophantus_public_key_to_octets(words: &[u32], octets: &mut [u8]);
    ciphertext_from_octets as giophantus_ciphertext_from_octets(octets: &[u8], words: &mut [u32]);
    ciphertext_to_octets as giophantus_ciphertext_to_octets(words: &[u32], octets: &mut [u8]);
}
