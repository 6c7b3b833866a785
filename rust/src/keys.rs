//! Secret and public keys.

use std::fmt;
use std::io::Read;

use crate::ciphertext::{Ciphertext, Encrypted};
use crate::error::Error;
use crate::ffi;
use crate::message::Message;
use crate::octets::{
    judged_octets, judged_octets_equal, judged_octets_hidden, judged_octets_shown, judged_octets_words,
};
use crate::parameters::{AnySet, FixedSet, Parameters};
use crate::random::{self, RandomUse};
use crate::workspace;

/// What key generation makes.
pub struct Keys<S = AnySet> {
    /// The secret key, a zero of the public key.
    pub secret_key: SecretKey<S>,
    /// The public key.
    pub public_key: PublicKey<S>,
    /// How many random octets were used, from the front, and how many groups and elements among them were dropped.
    pub used: RandomUse,
}

// Written out, since a derived one would ask the same of the tag.
impl<S> Clone for Keys<S> {
    fn clone(&self) -> Self {
        Keys { secret_key: self.secret_key.clone(), public_key: self.public_key.clone(), used: self.used }
    }
}

impl<S> fmt::Debug for Keys<S> {
    fn fmt(&self, f: &mut fmt::Formatter<'_>) -> fmt::Result {
        let Keys { secret_key, public_key, used } = self;
        f.debug_struct("Keys")
            .field("secret_key", secret_key)
            .field("public_key", public_key)
            .field("used", used)
            .finish()
    }
}

/// A secret key: two small elements, u_x and u_y, packed. `Debug` doesn't print it.
///
/// From octets: refusal 6 for a wrong length, 7 where either half has a non-zero unused bit.
///
/// Each element must have degree n - 1: a top coefficient, that of t^(n - 1), that isn't zero. Key generation makes no
/// other. A secret key from octets or words isn't judged by this; [`decrypt`](Self::decrypt) and
/// [`is_zero_of`](Self::is_zero_of) refuse it with 14.
///
/// ```
/// use giophantus::{Error, Parameters, PublicKey, SecretKey};
///
/// let set = Parameters::new(4, 1459, 2, 1, 1, 4)?;
/// let secret_key = SecretKey::try_from((&set, &[0x09, 0x04][..]))?;
/// assert_eq!(format!("{secret_key:?}"), "SecretKey { set: 4 1459 2 1 1 4, .. }");
///
/// let refused = SecretKey::try_from((&set, &[0x09, 0x14][..])).unwrap_err();
/// assert_eq!(refused, Error::Padding);
///
/// let ends_in_zero = SecretKey::from_words(&set, &[1, 2, 3, 0])?; // u_y is 3 + 0t
/// let public_key = PublicKey::from_words(&set, &[0; 6])?;
/// assert_eq!(ends_in_zero.is_zero_of(&public_key), Err(Error::TopCoefficient));
/// # Ok::<(), Error>(())
/// ```
pub struct SecretKey<S = AnySet> {
    set: Parameters<S>,
    octets: Vec<u8>,
}

judged_octets!(SecretKey);
judged_octets_hidden!(SecretKey);
judged_octets_words! {
    SecretKey: secret_key_from_octets, secret_key_to_octets, secret_key_len, secret_key_words;
    /// From the n coefficients of u_x and then of u_y: refusal 6 for another number of words, 8 for a word of ℓ or more.
    ///
    /// ```
    /// use giophantus::{Error, Parameters, SecretKey};
    ///
    /// let set = Parameters::new(4, 1459, 2, 1, 1, 4)?;
    /// let secret_key = SecretKey::from_words(&set, &[1, 2, 0, 1])?; // 1 + 2t, then t
    /// assert_eq!(secret_key.as_ref(), [0x09, 0x04]);
    /// assert_eq!(secret_key.to_words(), [1, 2, 0, 1]);
    ///
    /// let refused = SecretKey::from_words(&set, &[1, 2, 0, 4]).unwrap_err();
    /// assert_eq!(refused, Error::Coefficient);
    /// # Ok::<(), Error>(())
    /// ```
    from_words;
    /// The n coefficients of u_x and then of u_y.
    to_words;
}

impl<S> SecretKey<S> {
    /// The same secret key under the set for blank fields ([`Parameters::blank`]).
    pub fn blank(&self) -> SecretKey {
        SecretKey::judged(self.set.blank(), self.octets.clone())
    }

    /// The zero test: whether the public key's value at this secret key is 0. What is promised of decryption holds for
    /// such a secret key. Refusal 14 where either element's top coefficient is zero.
    pub fn is_zero_of(&self, public_key: &PublicKey<S>) -> Result<bool, Error> {
        self.set.same(&public_key.set)?;
        workspace::with(self.set.work_words(), |work| {
            ffi::is_zero(self.set.raw(), &self.octets, &public_key.octets, work)
        })
    }

    /// Decrypts a ciphertext, or the sum of several: refusal 14 where either element's top coefficient is zero; 10 where
    /// a coefficient past mlen bits isn't zero, which a wrong key, a wrong mlen, a damaged ciphertext or a sum past the
    /// headroom may give. They may as well give wrong counts and no refusal.
    ///
    /// ```
    /// use giophantus::{Message, Parameters};
    ///
    /// let set = Parameters::new(4, 65521, 2, 1, 1, 4)?;
    /// let keys = set.keygen(&[9; 100])?;
    /// let a = keys.public_key.encrypt(&Message::from_counts(&set, &[1, 0])?, &[5; 100])?.ciphertext;
    /// let b = keys.public_key.encrypt(&Message::from_counts(&set, &[2, 3])?, &[6; 100])?.ciphertext;
    /// let total = keys.secret_key.decrypt(&(&a + &b)?)?;
    /// assert_eq!(total.to_counts(), [3, 3]);
    /// # Ok::<(), giophantus::Error>(())
    /// ```
    pub fn decrypt(&self, ciphertext: &Ciphertext<S>) -> Result<Message<S>, Error> {
        self.set.same(ciphertext.parameters())?;
        let mut message = vec![0; self.set.message_len()];
        workspace::with(self.set.work_words(), |work| {
            ffi::decrypt(self.set.raw(), &self.octets, ciphertext.as_ref(), &mut message, work)
        })?;
        Ok(Message::judged(self.set, message))
    }
}

/// A public key: a polynomial in x and y of degree dX over R_q.
///
/// From octets: refusal 6 for a wrong length, 8 for a coefficient of q or more.
///
/// ```
/// use giophantus::{Error, Parameters, PublicKey};
///
/// let set = Parameters::new(4, 1459, 2, 1, 1, 4)?;
/// let octets = [5, 0, 7, 0, 0x64, 0, 1, 0, 0x9F, 5, 0x3E, 5];
/// let public_key = PublicKey::try_from((&set, &octets[..]))?;
/// assert_eq!(public_key.to_words(), [5, 7, 100, 1, 1439, 1342]);
///
/// let refused = PublicKey::try_from((&set, &octets[1..])).unwrap_err();
/// assert_eq!(refused, Error::Length);
/// # Ok::<(), Error>(())
/// ```
pub struct PublicKey<S = AnySet> {
    set: Parameters<S>,
    octets: Vec<u8>,
}

judged_octets!(PublicKey);
judged_octets_equal!(PublicKey);
judged_octets_shown!(PublicKey);
judged_octets_words! {
    PublicKey: public_key_from_octets, public_key_to_octets, public_key_len, public_key_words;
    /// From its coefficients, element by element: refusal 6 for another number of words, 8 for a word of q or more.
    from_words;
    /// Its coefficients, element by element, by falling total degree and then by falling power of x.
    to_words;
}

impl<S> PublicKey<S> {
    /// The same public key under the set for blank fields ([`Parameters::blank`]).
    ///
    /// ```
    /// use giophantus::{Message, Parameters};
    ///
    /// let set = Parameters::new(4, 65521, 2, 1, 1, 4)?;
    /// let keys = set.keygen(&[9; 100])?;
    /// let message = Message::from_counts(&set.blank(), &[])?;
    /// let sent = keys.public_key.blank().encrypt(&message, &[5; 100])?.ciphertext;
    /// assert!(keys.secret_key.blank().decrypt(&sent)?.is_blank());
    /// # Ok::<(), giophantus::Error>(())
    /// ```
    pub fn blank(&self) -> PublicKey {
        PublicKey::judged(self.set.blank(), self.octets.clone())
    }

    /// Encrypts a message with random octets: refusal 9 where they end too early. Octets that were used once must not
    /// be used again; [`Encrypted::used`] says how many were, from the front, and how many groups among them were
    /// dropped.
    ///
    /// ```
    /// use giophantus::{Error, Message, Parameters};
    ///
    /// let set = Parameters::new(4, 65521, 2, 1, 1, 4)?;
    /// let keys = set.keygen(&[9; 100])?;
    /// let message = Message::from_counts(&set, &[2, 3])?;
    /// let encrypted = keys.public_key.encrypt(&message, &[5; 100])?;
    /// assert_eq!(encrypted.used.octets, 18);
    ///
    /// let refused = keys.public_key.encrypt(&message, &[5; 17]).unwrap_err();
    /// assert_eq!(refused, Error::RandomExhausted);
    /// # Ok::<(), Error>(())
    /// ```
    pub fn encrypt(&self, message: &Message<S>, random: &[u8]) -> Result<Encrypted<S>, Error> {
        self.set.same(message.parameters())?;
        let mut ciphertext = vec![0; self.set.ciphertext_len()];
        let used = workspace::with(self.set.work_words(), |work| {
            ffi::encrypt(self.set.raw(), &self.octets, message.as_ref(), random, &mut ciphertext, work)
        })?;
        Ok(Encrypted { ciphertext: Ciphertext::judged(self.set, ciphertext), used })
    }

    /// Encrypts as [`encrypt`](Self::encrypt) does, with octets from a reader. It reads exactly the octets that it uses:
    /// the next call with the same reader goes on behind them. Refusal 9 where the reader ends too early, or where some
    /// 4 MiB of it aren't enough: it then gives nothing but groups that are dropped.
    pub fn encrypt_from(&self, message: &Message<S>, source: impl Read) -> Result<Encrypted<S>, Error> {
        self.encrypt(message, &random::read(&self.set, &self.set.encryption_draws(), source)?)
    }
}
