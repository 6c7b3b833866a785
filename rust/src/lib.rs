//! Giophantus for adding encrypted counts: a safe interface over libgiophantus.a, whose functions are proved against a
//! definition of every answer.
//!
//! An office makes a key pair, laboratories encrypt small counts under the public key, anyone adds the ciphertexts
//! without decrypting them, and the office decrypts the total.
//!
//! ```
//! use giophantus::{Ciphertext, Message, Parameters};
//!
//! // ℓ 16, q 2147483647, n 4, dX 1, dr 1, mlen 16: four counts of 0 to 15.
//! let set = Parameters::new(16, 2147483647, 4, 1, 1, 16)?;
//! assert_eq!(set.headroom(), 819); // so many ciphertexts may be added
//!
//! // The octets of this example aren't random: a real program reads them from the system (`keygen_from`).
//! let keys = set.keygen(&[0x5A; 64])?;
//!
//! let counts = [[3, 0, 7, 1], [2, 5, 4, 0]];
//! let mut ciphertexts = Vec::new();
//! for (laboratory, counts) in counts.iter().enumerate() {
//!     let message = Message::from_counts(&set, counts)?;
//!     let random = [laboratory as u8; 64];
//!     ciphertexts.push(keys.public_key.encrypt(&message, &random)?.ciphertext);
//! }
//!
//! let total = (&ciphertexts[0] + &ciphertexts[1])?;
//! assert_eq!(keys.secret_key.decrypt(&total)?.to_counts(), [5, 5, 11, 1]);
//! # Ok::<(), giophantus::Error>(())
//! ```
//!
//! # What limits a total
//!
//! - The **headroom**: the sum of s fresh ciphertexts under one key is promised to decrypt to the total while s is at
//!   most [`Parameters::headroom`]. Nothing in a ciphertext tells how many were added. Past the headroom nothing is
//!   promised, and a wrong total need not be refused.
//! - **ℓ**: each total is modulo ℓ. Where totals stay below ℓ they are the totals themselves.
//!
//! # Blank fields
//!
//! A count of zero is a finding. A field that was left blank goes out under the same set with mlen 0
//! ([`Parameters::blank`]) and never as zeros, and isn't one of the summands: adding it to counts is
//! [`Error::DifferentSets`].
//!
//! # Two suppliers' draws
//!
//! The set of six numbers is edition 1. [`Parameters::with_edition`] makes edition 2 of it, under which keys are drawn as the
//! second supplier draws them: the same keys from the same octets, of which more are used. Nothing else depends on the
//! [edition](Parameters::edition), and values of both fit together.
//!
//! # Types
//!
//! [`Parameters`] holds only sets that the library accepts. [`SecretKey`], [`PublicKey`], [`Ciphertext`] and [`Message`]
//! hold octets that are well formed under their set: exact length, zero unused bits, coefficients below q. Each carries
//! its set, and is made from octets with it, `PublicKey::try_from((&set, octets))`. Where the set is known when the
//! program is compiled, a [`FixedSet`] of your own tags the types and octets alone suffice,
//! `PublicKey::<MySet>::try_from(octets)`. `AsRef<[u8]>` gives the octets back.
//!
//! [`Element`], a ring element, is made in the same ways and holds words: [`Element::multiply_add`] makes a × b + c in
//! place, for those who follow the ring's arithmetic step by step.
//!
//! Every refusal of the library is a variant of [`Error`] with its number, a sentence and what to do, and
//! [`Error::REFUSALS`] has them in their order. [`RandomUse`] says what a call used of its random octets. The work words
//! that the library needs are kept for each thread and used again.
//!
//! # What is not here
//!
//! Nothing is claimed about secrecy or equal timing, and memory isn't wiped. Random octets come from the caller. That q is
//! prime is the care of whoever chooses the set.

#![deny(missing_docs)]
#![deny(unsafe_code)]
#![deny(rustdoc::broken_intra_doc_links)]

mod ciphertext;
mod element;
mod error;
#[allow(unsafe_code)]
mod ffi;
mod keys;
mod message;
mod octets;
mod parameters;
mod random;
mod workspace;

pub use ciphertext::{Ciphertext, Encrypted};
pub use element::Element;
pub use error::Error;
pub use keys::{Keys, PublicKey, SecretKey};
pub use message::Message;
pub use parameters::{AnySet, FixedSet, Parameters};
pub use random::RandomUse;

/// The README's example runs too.
#[cfg(doctest)]
#[doc = include_str!("../README.md")]
enum Readme {}
