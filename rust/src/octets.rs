//! What keys, messages and ciphertexts have in common: judged octets and the set that they belong to.

use std::fmt;

/// Why a conversion of judged octets can't be refused.
pub(crate) const WELL_FORMED: &str = "octets that were judged well formed convert to words";

/// Octets in hexadecimal, cut short where there are many.
pub(crate) struct Shown<'a>(pub &'a [u8]);

impl fmt::Debug for Shown<'_> {
    fn fmt(&self, f: &mut fmt::Formatter<'_>) -> fmt::Result {
        const MOST: usize = 32;
        for octet in self.0.iter().take(MOST) {
            write!(f, "{octet:02X}")?;
        }
        match self.0.len() {
            0..=MOST => Ok(()),
            len => write!(f, ".. ({len} octets)"),
        }
    }
}

/// The common part of a type that holds judged octets. The type has a function `judge`, which refuses what is not well
/// formed under the set.
macro_rules! judged_octets {
    ($type:ident) => {
        impl<S> $type<S> {
            /// From octets that are known to be well formed.
            pub(crate) fn judged(set: Parameters<S>, octets: Vec<u8>) -> Self {
                $type { set, octets }
            }

            /// The set that it belongs to.
            pub fn parameters(&self) -> &Parameters<S> {
                &self.set
            }
        }

        impl<S> Clone for $type<S> {
            fn clone(&self) -> Self {
                $type { set: self.set, octets: self.octets.clone() }
            }
        }

        impl<S> AsRef<[u8]> for $type<S> {
            fn as_ref(&self) -> &[u8] {
                &self.octets
            }
        }

        impl<S> From<$type<S>> for Vec<u8> {
            fn from(value: $type<S>) -> Self {
                value.octets
            }
        }

        /// Under a set that is chosen while the program runs.
        impl<S> TryFrom<(&Parameters<S>, &[u8])> for $type<S> {
            type Error = Error;

            fn try_from((set, octets): (&Parameters<S>, &[u8])) -> Result<Self, Error> {
                Self::judge(set, octets)?;
                Ok(Self::judged(*set, octets.to_vec()))
            }
        }

        /// Under a set that is known when the program is compiled.
        impl<S: FixedSet> TryFrom<&[u8]> for $type<S> {
            type Error = Error;

            fn try_from(octets: &[u8]) -> Result<Self, Error> {
                Self::try_from((&Parameters::fixed()?, octets))
            }
        }
    };
}

/// Words of a type that holds judged octets, by the two conversions of the C interface, of which the one from octets is
/// its `judge` too. Given are their names, the type's lengths in octets and in words, and what each function's
/// documentation says.
macro_rules! judged_octets_words {
    (
        $type:ident: $from_octets:ident, $to_octets:ident, $len:ident, $words:ident;
        $(#[$from_words:meta])* from_words;
        $(#[$to_words:meta])* to_words;
    ) => {
        impl<S> $type<S> {
            fn judge(set: &Parameters<S>, octets: &[u8]) -> Result<(), Error> {
                ffi::$from_octets(set.raw(), octets, &mut vec![0; set.$words()])
            }

            $(#[$from_words])*
            pub fn from_words(set: &Parameters<S>, words: &[u32]) -> Result<Self, Error> {
                let mut octets = vec![0; set.$len()];
                ffi::$to_octets(set.raw(), words, &mut octets)?;
                Ok(Self::judged(*set, octets))
            }

            $(#[$to_words])*
            pub fn to_words(&self) -> Vec<u32> {
                let mut words = vec![0; self.set.$words()];
                let converted = ffi::$from_octets(self.set.raw(), &self.octets, &mut words);
                converted.expect($crate::octets::WELL_FORMED);
                words
            }
        }
    };
}

/// Equality of judged octets under one set, its edition too; not for secret keys.
macro_rules! judged_octets_equal {
    ($type:ident) => {
        impl<S> PartialEq for $type<S> {
            fn eq(&self, other: &Self) -> bool {
                self.set == other.set && self.octets == other.octets
            }
        }

        impl<S> Eq for $type<S> {}
    };
}

/// `Debug` that shows the octets.
macro_rules! judged_octets_shown {
    ($type:ident) => {
        impl<S> std::fmt::Debug for $type<S> {
            fn fmt(&self, f: &mut std::fmt::Formatter<'_>) -> std::fmt::Result {
                f.debug_struct(stringify!($type))
                    .field("set", &format_args!("{}", self.set))
                    .field("octets", &$crate::octets::Shown(&self.octets))
                    .finish()
            }
        }
    };
}

/// `Debug` that keeps the octets to itself.
macro_rules! judged_octets_hidden {
    ($type:ident) => {
        impl<S> std::fmt::Debug for $type<S> {
            fn fmt(&self, f: &mut std::fmt::Formatter<'_>) -> std::fmt::Result {
                f.debug_struct(stringify!($type)).field("set", &format_args!("{}", self.set)).finish_non_exhaustive()
            }
        }
    };
}

pub(crate) use {judged_octets, judged_octets_equal, judged_octets_hidden, judged_octets_shown, judged_octets_words};
