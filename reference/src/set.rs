//! The parameter set: its tests 1 to 5 and 18, the bound, the headroom and the lengths.

use crate::monomials;
use crate::refusal;

/// The six numbers of 01 and the edition of 02's Q-7, in roomsheet's order.
#[derive(Clone, Copy, Debug, PartialEq, Eq)]
pub struct Set {
    pub l: u32,
    pub q: u32,
    pub n: u32,
    pub dx: u32,
    pub dr: u32,
    pub mlen: u32,
    pub edition: u32,
}

/// The set of these six numbers, in edition 1: the rule of 01.
pub const fn set(l: u32, q: u32, n: u32, dx: u32, dr: u32, mlen: u32) -> Set {
    Set {
        l,
        q,
        n,
        dx,
        dr,
        mlen,
        edition: 1,
    }
}

/// b, the bits of a small coefficient; `None` where l isn't 2, 4, 8 or 16.
pub fn small_bits(l: u32) -> Option<u32> {
    match l {
        2 => Some(1),
        4 => Some(2),
        8 => Some(3),
        16 => Some(4),
        _ => None,
    }
}

/// S: the sum over k from 0 to d of (k + 1) * n^k * (l - 1)^(k + 1).
///
/// For l <= 16, n <= 4,096 and d <= 4 this is below 2^72, so u128 is wide enough.
pub fn sum_s(l: u32, n: u32, d: u32) -> u128 {
    let mut sum = 0;
    for k in 0..=d {
        sum += u128::from(k + 1) * u128::from(n).pow(k) * u128::from(l - 1).pow(k + 1);
    }
    sum
}

/// B = l - 1 + l * S, below 2^76 within the limits above.
pub fn bound(l: u32, n: u32, d: u32) -> u128 {
    u128::from(l - 1) + u128::from(l) * sum_s(l, n, d)
}

/// The largest whole number s with s * bound < q, for q >= 1 and bound >= 1.
pub fn headroom(q: u32, bound: u128) -> u128 {
    (u128::from(q) - 1) / bound
}

/// Tests 1 to 5 and then 18; the first that applies gives its number.
pub fn check(set: Set) -> u32 {
    let Some(b) = small_bits(set.l) else {
        return refusal::RANGE;
    };
    if set.n < 2 || set.n > 4096 {
        return refusal::RING;
    }
    if set.dx < 1 || set.dx > 2 || set.dr < 1 || set.dr > 2 {
        return refusal::DEGREE;
    }
    if set.q > 2_147_483_647 || u128::from(set.q) <= bound(set.l, set.n, set.dx + set.dr) {
        return refusal::MODULUS;
    }
    if set.mlen > set.n * b || !set.mlen.is_multiple_of(b) {
        return refusal::MESSAGE_SIZE;
    }
    if set.edition < 1 || set.edition > 2 {
        return refusal::EDITION;
    }
    refusal::NONE
}

/// A length as a function of the set.
pub type Length = fn(Set) -> usize;

/// Tests 1 to 5, 18 and 6: the set, then each length that is given beside the exact one.
pub fn check_lengths<const N: usize>(set: Set, lengths: [(usize, Length); N]) -> u32 {
    let number = check(set);
    if number != refusal::NONE {
        return number;
    }
    if lengths.iter().any(|(given, exact)| *given != exact(set)) {
        return refusal::LENGTH;
    }
    refusal::NONE
}

/// The bound and the headroom of an accepted set. Both are below q, so they fit.
pub fn limits(set: Set, bound_out: &mut u32, headroom_out: &mut u32) -> u32 {
    let number = check(set);
    if number != refusal::NONE {
        return number;
    }
    let b = bound(set.l, set.n, set.dx + set.dr);
    let s = headroom(set.q, b);
    *bound_out = u32::try_from(b).expect("the bound is below q");
    *headroom_out = u32::try_from(s).expect("the headroom is below q");
    refusal::NONE
}

/// The octets of each buffer of an accepted set, and the words of work.
pub fn lengths(
    set: Set,
    secret_key: &mut u64,
    public_key: &mut u64,
    message: &mut u64,
    ciphertext: &mut u64,
    work: &mut u64,
) -> u32 {
    let number = check(set);
    if number != refusal::NONE {
        return number;
    }
    *secret_key = set.secret_key_octets() as u64;
    *public_key = set.public_key_octets() as u64;
    *message = set.message_octets() as u64;
    *ciphertext = set.ciphertext_octets() as u64;
    *work = set.work_words() as u64;
    refusal::NONE
}

/// The number of bits of q: the smallest k with q < 2^k.
pub fn bit_length(q: u32) -> u32 {
    let mut bits = 0;
    while u64::from(q) >= 1u64 << bits {
        bits += 1;
    }
    bits
}

impl Set {
    /// The same set in this edition.
    pub const fn in_edition(self, edition: u32) -> Set {
        Set { edition, ..self }
    }
}

/// What follows is for accepted sets.
impl Set {
    /// b.
    pub fn b(self) -> u32 {
        small_bits(self.l).expect("the set is accepted")
    }

    /// D = dX + dr, the degree of a ciphertext.
    pub fn d(self) -> u32 {
        self.dx + self.dr
    }

    /// Whether keygen draws the constant as well, only to throw it away: edition 2 (02, Q-7).
    pub fn draws_constant(self) -> bool {
        self.edition == 2
    }

    /// The same set with messages of all n coefficients.
    pub fn whole(self) -> Set {
        Set {
            mlen: self.n * self.b(),
            ..self
        }
    }

    /// n as a length.
    pub fn places(self) -> usize {
        self.n as usize
    }

    /// qlen: the bit length of q divided by 8, rounded up.
    pub fn qlen(self) -> usize {
        bit_length(self.q).div_ceil(8) as usize
    }

    /// Octets of an element of R_q.
    pub fn element_octets(self) -> usize {
        self.places() * self.qlen()
    }

    /// Octets of a packed small element.
    pub fn small_octets(self) -> usize {
        (self.n * self.b()).div_ceil(8) as usize
    }

    /// Octets of a secret key: the packed u_x, then the packed u_y.
    pub fn secret_key_octets(self) -> usize {
        2 * self.small_octets()
    }

    /// Words of a secret key.
    pub fn secret_key_words(self) -> usize {
        2 * self.places()
    }

    /// Words of a public key.
    pub fn public_key_words(self) -> usize {
        monomials::count(self.dx) * self.places()
    }

    /// Octets of a public key.
    pub fn public_key_octets(self) -> usize {
        self.public_key_words() * self.qlen()
    }

    /// Octets of a message.
    pub fn message_octets(self) -> usize {
        self.mlen.div_ceil(8) as usize
    }

    /// Words of a ciphertext.
    pub fn ciphertext_words(self) -> usize {
        monomials::count(self.d()) * self.places()
    }

    /// Octets of a ciphertext (01: a form).
    pub fn ciphertext_octets(self) -> usize {
        self.ciphertext_words() * self.qlen()
    }

    /// Words of work.
    pub fn work_words(self) -> usize {
        8 * self.places()
    }
}
