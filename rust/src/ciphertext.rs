//! Ciphertexts and their sums.

use std::fmt;
use std::ops::Add;

use crate::error::Error;
use crate::ffi;
use crate::octets::{judged_octets, judged_octets_equal, judged_octets_shown, judged_octets_words};
use crate::parameters::{AnySet, FixedSet, Parameters};
use crate::random::RandomUse;

/// What encryption makes.
pub struct Encrypted<S = AnySet> {
    /// The ciphertext.
    pub ciphertext: Ciphertext<S>,
    /// How many random octets were used, from the front, and how many groups among them were dropped.
    pub used: RandomUse,
}

// Written out, since a derived one would ask the same of the tag.
impl<S> Clone for Encrypted<S> {
    fn clone(&self) -> Self {
        Encrypted { ciphertext: self.ciphertext.clone(), used: self.used }
    }
}

impl<S> fmt::Debug for Encrypted<S> {
    fn fmt(&self, f: &mut fmt::Formatter<'_>) -> fmt::Result {
        f.debug_struct("Encrypted").field("ciphertext", &self.ciphertext).field("used", &self.used).finish()
    }
}

/// A ciphertext, or the sum of several: a polynomial in x and y of degree dX + dr over R_q.
///
/// From octets: refusal 6 for a wrong length, 8 for a coefficient of q or more. Octets don't tell how many ciphertexts
/// a sum has, nor under which key they were made: that is the caller's to keep.
///
/// Sums are made by `&a + &b` or [`try_add`](Ciphertext::try_add); each gives a `Result`, since values of two sets can't
/// be added. The sum of s fresh ciphertexts under one key decrypts to the total, each count modulo ℓ, while s is at most
/// [`Parameters::headroom`].
///
/// ```
/// use giophantus::{Ciphertext, Error, Parameters};
///
/// let set = Parameters::new(4, 1459, 2, 1, 1, 4)?;
/// let a = Ciphertext::from_words(&set, &[1458; 12])?;
/// let b = Ciphertext::from_words(&set, &[2; 12])?;
/// assert_eq!((&a + &b)?.to_words(), [1; 12]);
/// assert_eq!(a.try_add(&a)?.to_words(), [1457; 12]);
///
/// let blank = Ciphertext::from_words(&set.blank(), &[0; 12])?;
/// assert_eq!(&a + &blank, Err(Error::DifferentSets));
/// # Ok::<(), Error>(())
/// ```
pub struct Ciphertext<S = AnySet> {
    set: Parameters<S>,
    octets: Vec<u8>,
}

judged_octets!(Ciphertext);
judged_octets_equal!(Ciphertext);
judged_octets_shown!(Ciphertext);
judged_octets_words! {
    Ciphertext: ciphertext_from_octets, ciphertext_to_octets, ciphertext_len, ciphertext_words;
    /// From its coefficients, element by element: refusal 6 for another number of words, 8 for a word of q or more.
    from_words;
    /// Its coefficients, element by element, by falling total degree and then by falling power of x.
    to_words;
}

impl<S> Ciphertext<S> {
    /// The sum of two ciphertexts, which may be one.
    pub fn try_add(&self, other: &Self) -> Result<Self, Error> {
        self.set.same(&other.set)?;
        let mut sum = vec![0; self.set.ciphertext_len()];
        ffi::add(self.set.raw(), &self.octets, &other.octets, &mut sum)?;
        Ok(Self::judged(self.set, sum))
    }

    /// The sum of all, or `None` where there is none to add: a sum of nothing is no ciphertext.
    ///
    /// ```
    /// use giophantus::{Ciphertext, Parameters};
    ///
    /// let set = Parameters::new(4, 65521, 2, 1, 1, 4)?;
    /// let one = Ciphertext::from_words(&set, &[1; 12])?;
    /// let total = Ciphertext::try_sum([&one, &one, &one])?.unwrap();
    /// assert_eq!(total.to_words(), [3; 12]);
    /// assert_eq!(Ciphertext::try_sum::<[&Ciphertext; 0]>([])?, None);
    /// # Ok::<(), giophantus::Error>(())
    /// ```
    pub fn try_sum<'a, I>(ciphertexts: I) -> Result<Option<Self>, Error>
    where
        I: IntoIterator<Item = &'a Self>,
        S: 'a,
    {
        let mut rest = ciphertexts.into_iter();
        let Some(first) = rest.next() else {
            return Ok(None);
        };
        rest.try_fold(first.clone(), |sum, next| sum.try_add(next)).map(Some)
    }
}

impl<S> Add for Ciphertext<S> {
    type Output = Result<Ciphertext<S>, Error>;

    fn add(self, other: Self) -> Self::Output {
        self.try_add(&other)
    }
}

impl<S> Add<&Ciphertext<S>> for Ciphertext<S> {
    type Output = Result<Ciphertext<S>, Error>;

    fn add(self, other: &Ciphertext<S>) -> Self::Output {
        self.try_add(other)
    }
}

impl<S> Add for &Ciphertext<S> {
    type Output = Result<Ciphertext<S>, Error>;

    fn add(self, other: Self) -> Self::Output {
        self.try_add(other)
    }
}
