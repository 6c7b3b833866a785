//! Ring elements and their products.

use std::fmt;

use crate::error::Error;
use crate::ffi;
use crate::parameters::{AnySet, FixedSet, Parameters};

/// A ring element: n coefficients below q, those of t^0 to t^(n - 1), in R_q, where t^n = 1.
///
/// It is for those who follow the ring's arithmetic step by step, or compare other software with the library. Adding counts
/// doesn't need it.
///
/// From octets: refusal 6 for a wrong length, 8 for a coefficient of q or more. It holds words, where the other types
/// hold octets, so that products in a row convert nothing: `AsRef<[u32]>` gives the words, and
/// [`to_octets`](Element::to_octets) makes the octets. `Debug` prints words, those that came from a secret key too.
///
/// The zero test step by step, for a public key of degree 1: its value at the secret key.
///
/// ```
/// use giophantus::{Element, Parameters};
///
/// let set = Parameters::new(4, 1459, 2, 1, 1, 4)?;
/// let keys = set.keygen(&[0x09, 0x04, 0x05, 0, 0x07, 0, 0x64, 0, 0x01, 0])?;
/// let element = |words: &[u32]| Element::from_words(&set, words);
///
/// let secret_key = keys.secret_key.to_words(); // u_x, then u_y
/// let (u_x, u_y) = (element(&secret_key[..2])?, element(&secret_key[2..])?);
///
/// let public_key = keys.public_key.to_words(); // what x, y and 1 are multiplied by
/// let mut value = element(&public_key[4..])?;
/// value.multiply_add(&element(&public_key[..2])?, &u_x)?;
/// value.multiply_add(&element(&public_key[2..4])?, &u_y)?;
/// assert_eq!(value, Element::zero(&set));
/// # Ok::<(), giophantus::Error>(())
/// ```
pub struct Element<S = AnySet> {
    set: Parameters<S>,
    words: Vec<u32>,
}

impl<S> Element<S> {
    /// The element whose coefficients are all 0.
    pub fn zero(set: &Parameters<S>) -> Self {
        Element { set: *set, words: vec![0; set.places()] }
    }

    /// From its coefficients: refusal 6 for another number of words than n, 8 for a word of q or more. The words of a
    /// small element may be given as they are.
    pub fn from_words(set: &Parameters<S>, words: &[u32]) -> Result<Self, Error> {
        // The library judges them.
        set.element_to_octets(words)?;
        Ok(Element { set: *set, words: words.to_vec() })
    }

    /// Its n coefficients.
    pub fn to_words(&self) -> Vec<u32> {
        self.words.clone()
    }

    /// Its n × qlen octets.
    pub fn to_octets(&self) -> Vec<u8> {
        self.set.element_to_octets(&self.words).expect("words that were judged well formed convert to octets")
    }

    /// The set that it belongs to.
    pub fn parameters(&self) -> &Parameters<S> {
        &self.set
    }

    /// Adds a × b to it: c becomes a × b + c, where c is `self`. (In [`f64::mul_add`] `self` is a factor.) a and b may
    /// be one. Where either is of another set, the answer is [`Error::DifferentSets`] and c stays as it was.
    ///
    /// ```
    /// use giophantus::{Element, Error, Parameters};
    ///
    /// let set = Parameters::new(4, 1459, 2, 1, 1, 4)?;
    /// let a = Element::from_words(&set, &[1, 2])?; // 1 + 2t
    /// let b = Element::from_words(&set, &[5, 7])?; // 5 + 7t
    /// let mut c = Element::zero(&set);
    /// c.multiply_add(&a, &b)?;
    /// assert_eq!(c.to_words(), [19, 17]); // t² is 1
    ///
    /// let other = Element::zero(&set.blank());
    /// assert_eq!(c.multiply_add(&a, &other), Err(Error::DifferentSets));
    /// # Ok::<(), Error>(())
    /// ```
    pub fn multiply_add(&mut self, a: &Self, b: &Self) -> Result<(), Error> {
        self.set.same(&a.set)?;
        self.set.same(&b.set)?;
        ffi::multiply_add(self.set.raw(), &a.words, &b.words, &mut self.words)
    }
}

impl<S> AsRef<[u32]> for Element<S> {
    fn as_ref(&self) -> &[u32] {
        &self.words
    }
}

/// Under a set that is chosen while the program runs.
impl<S> TryFrom<(&Parameters<S>, &[u8])> for Element<S> {
    type Error = Error;

    fn try_from((set, octets): (&Parameters<S>, &[u8])) -> Result<Self, Error> {
        Ok(Element { set: *set, words: set.element_from_octets(octets)? })
    }
}

/// Under a set that is known when the program is compiled.
impl<S: FixedSet> TryFrom<&[u8]> for Element<S> {
    type Error = Error;

    fn try_from(octets: &[u8]) -> Result<Self, Error> {
        Self::try_from((&Parameters::fixed()?, octets))
    }
}

// Written out, since a derived one would ask the same of the tag.
impl<S> Clone for Element<S> {
    fn clone(&self) -> Self {
        Element { set: self.set, words: self.words.clone() }
    }
}

impl<S> PartialEq for Element<S> {
    fn eq(&self, other: &Self) -> bool {
        self.set == other.set && self.words == other.words
    }
}

impl<S> Eq for Element<S> {}

impl<S> fmt::Debug for Element<S> {
    fn fmt(&self, f: &mut fmt::Formatter<'_>) -> fmt::Result {
        f.debug_struct("Element")
            .field("set", &format_args!("{}", self.set))
            .field("words", &Shown(&self.words))
            .finish()
    }
}

/// Words, cut short where there are many.
struct Shown<'a>(&'a [u32]);

impl fmt::Debug for Shown<'_> {
    fn fmt(&self, f: &mut fmt::Formatter<'_>) -> fmt::Result {
        const MOST: usize = 8;
        match self.0.len() {
            0..=MOST => self.0.fmt(f),
            len => write!(f, "{:?}.. ({len} words)", &self.0[..MOST]),
        }
    }
}
