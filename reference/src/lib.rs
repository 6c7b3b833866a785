//! A second implementation of document 01 ("01" below) and, of document 02 ("02"), of Q-1's dropped
//! groups, Q-3's secrets of full degree, Q-7's editions and Q-8's operation, plain on purpose:
//! simple loops, wide integers, memory allocated freely. Tests compare the library with it.
//!
//! Every call takes the parameter set first and its other arguments in the order of the C
//! interface, and answers the refusal number (0 at success). On a refusal every output holds its
//! old contents.

#![forbid(unsafe_code)]

pub mod convert;
pub mod draw;
pub mod ledger;
pub mod monomials;
pub mod octets;
pub mod prng;
pub mod refusal;
pub mod ring;
pub mod roomsheet;
pub mod scheme;
pub mod set;

pub use convert::{
    ciphertext_from_octets, ciphertext_to_octets, element_from_octets, element_to_octets,
    public_key_from_octets, public_key_to_octets, secret_key_from_octets, secret_key_to_octets,
    small_from_octets, small_to_octets,
};
pub use scheme::{add, decrypt, encrypt, is_zero, keygen, multiply_add};
pub use set::{check, lengths, limits, Set};
