//! keygen, the zero test, encrypt, add, decrypt and multiply_add.

use crate::draw::Draws;
use crate::monomials;
use crate::octets;
use crate::refusal;
use crate::ring::{self, Element, Polynomial};
use crate::set::{check_lengths, Set};

/// 01: key making. Draws u_x, u_y (by 02's Q-3 of degree n - 1) and every key element but the
/// constant, which is minus the sum of a_ij * u_x^i * u_y^j over the others. By 02's Q-7, edition 2
/// then draws n coefficients more and throws them away. Reports the octets used and, by 02's Q-1
/// and Q-3, the groups and the secret elements dropped. Refusals 1 to 5, 18, 6, 9.
#[allow(clippy::too_many_arguments)] // Those of the C interface.
pub fn keygen(
    set: Set,
    random: &[u8],
    secret_key: &mut [u8],
    public_key: &mut [u8],
    work: &mut [u32],
    used: &mut u64,
    dropped_groups: &mut u64,
    dropped_elements: &mut u64,
) -> u32 {
    let number = check_lengths(
        set,
        [
            (secret_key.len(), Set::secret_key_octets),
            (public_key.len(), Set::public_key_octets),
            (work.len(), Set::work_words),
        ],
    );
    if number != refusal::NONE {
        return number;
    }
    work.fill(0);

    let mut draws = Draws::new(random);
    let Some((u_x, u_y, key)) = draw_keys(set, &mut draws) else {
        return refusal::RANDOM_EXHAUSTED;
    };

    let small_octets = set.small_octets();
    secret_key[..small_octets].copy_from_slice(&octets::pack(set.b(), &u_x, small_octets));
    secret_key[small_octets..].copy_from_slice(&octets::pack(set.b(), &u_y, small_octets));
    public_key.copy_from_slice(&octets::numbers_to_octets(set.qlen(), &key.to_words()));
    *used = draws.used();
    *dropped_groups = draws.dropped_groups();
    *dropped_elements = draws.dropped_elements();
    refusal::NONE
}

fn draw_keys(set: Set, draws: &mut Draws) -> Option<(Element, Element, Polynomial)> {
    let u_x = draws.small_of_full_degree(set)?;
    let u_y = draws.small_of_full_degree(set)?;
    let mut key = Polynomial {
        degree: set.dx,
        elements: Vec::new(),
    };
    for _ in 0..monomials::count(set.dx) - 1 {
        key.elements.push(draws.element(set)?);
    }
    if set.draws_constant() {
        // It has no part in the key: only its octets and its dropped groups count.
        draws.element(set)?;
    }
    // With a constant of zero the value is the sum over the others.
    key.elements.push(vec![0; set.places()]);
    let others = ring::value(set.q, &key, &u_x, &u_y);
    let constant = key.elements.last_mut().expect("the constant");
    *constant = ring::negative(set.q, &others);
    Some((u_x, u_y, key))
}

/// The zero test: 1 if the key's value at the secret key is 0 in R_q, otherwise 0. Refusals 1 to 5,
/// 18, 6 to 8, 14.
///
/// A secret key for which it says 1 is a zero of the public key (01: a fitting secret).
pub fn is_zero(
    set: Set,
    secret_key: &[u8],
    public_key: &[u8],
    work: &mut [u32],
    zero: &mut u32,
) -> u32 {
    let number = check_lengths(
        set,
        [
            (secret_key.len(), Set::secret_key_octets),
            (public_key.len(), Set::public_key_octets),
            (work.len(), Set::work_words),
        ],
    );
    if number != refusal::NONE {
        return number;
    }
    work.fill(0);

    let value = match value_at_secret(set, secret_key, set.dx, public_key) {
        Ok(value) => value,
        Err(number) => return number,
    };
    *zero = u32::from(value.iter().all(|&x| x == 0));
    refusal::NONE
}

/// 01: sealing. c = m + X * r + l * e over R_q. Reports the octets used and, by 02's Q-1, the
/// groups dropped. Refusals 1 to 5, 18, 6 to 9.
#[allow(clippy::too_many_arguments)] // Those of the C interface.
pub fn encrypt(
    set: Set,
    public_key: &[u8],
    message: &[u8],
    random: &[u8],
    ciphertext: &mut [u8],
    work: &mut [u32],
    used: &mut u64,
    dropped_groups: &mut u64,
) -> u32 {
    let number = check_lengths(
        set,
        [
            (public_key.len(), Set::public_key_octets),
            (message.len(), Set::message_octets),
            (ciphertext.len(), Set::ciphertext_octets),
            (work.len(), Set::work_words),
        ],
    );
    if number != refusal::NONE {
        return number;
    }
    work.fill(0);

    let Some(m) = read_message(set, message) else {
        return refusal::PADDING;
    };
    let Some(key) = read_polynomial(set, set.dx, public_key) else {
        return refusal::COEFFICIENT;
    };
    let mut draws = Draws::new(random);
    let Some(c) = draw_ciphertext(set, &m, &key, &mut draws) else {
        return refusal::RANDOM_EXHAUSTED;
    };
    ciphertext.copy_from_slice(&octets::numbers_to_octets(set.qlen(), &c.to_words()));
    *used = draws.used();
    *dropped_groups = draws.dropped_groups();
    refusal::NONE
}

fn draw_ciphertext(set: Set, m: &[u32], key: &Polynomial, draws: &mut Draws) -> Option<Polynomial> {
    let (r, e) = draw_r_and_e(set, draws)?;
    let mut c = ring::polynomial_product(set.q, set.places(), key, &r);
    for (c_ij, e_ij) in c.elements.iter_mut().zip(&e.elements) {
        *c_ij = ring::sum(set.q, c_ij, &ring::multiple(set.q, set.l, e_ij));
    }
    let constant = monomials::position(set.d(), 0, 0);
    c.elements[constant] = ring::sum(set.q, &c.elements[constant], m);
    Some(c)
}

fn draw_r_and_e(set: Set, draws: &mut Draws) -> Option<(Polynomial, Polynomial)> {
    let mut r = Polynomial {
        degree: set.dr,
        elements: Vec::new(),
    };
    for _ in 0..monomials::count(set.dr) {
        r.elements.push(draws.element(set)?);
    }
    let mut e = Polynomial {
        degree: set.d(),
        elements: Vec::new(),
    };
    for _ in 0..monomials::count(set.d()) {
        e.elements.push(draws.small(set)?);
    }
    Some((r, e))
}

/// 01: adding two forms. Coefficient by coefficient modulo q. Refusals 1 to 5, 18, 6, 8.
pub fn add(set: Set, a: &[u8], b: &[u8], sum: &mut [u8]) -> u32 {
    let number = check_lengths(
        set,
        [
            (a.len(), Set::ciphertext_octets),
            (b.len(), Set::ciphertext_octets),
            (sum.len(), Set::ciphertext_octets),
        ],
    );
    if number != refusal::NONE {
        return number;
    }
    let a = octets::numbers_from_octets(set.qlen(), a);
    let b = octets::numbers_from_octets(set.qlen(), b);
    if a.iter().chain(&b).any(|&x| x >= set.q) {
        return refusal::COEFFICIENT;
    }
    sum.copy_from_slice(&octets::numbers_to_octets(
        set.qlen(),
        &ring::sum(set.q, &a, &b),
    ));
    refusal::NONE
}

/// 01: opening. w = c(u_x, u_y) in R_q, each coefficient as a number 0 to q - 1, then modulo l.
/// Refusals 1 to 5, 18, 6 to 8, 14, 10, in this order.
pub fn decrypt(
    set: Set,
    secret_key: &[u8],
    ciphertext: &[u8],
    message: &mut [u8],
    work: &mut [u32],
) -> u32 {
    let number = check_lengths(
        set,
        [
            (secret_key.len(), Set::secret_key_octets),
            (ciphertext.len(), Set::ciphertext_octets),
            (message.len(), Set::message_octets),
            (work.len(), Set::work_words),
        ],
    );
    if number != refusal::NONE {
        return number;
    }
    work.fill(0);

    let w = match value_at_secret(set, secret_key, set.d(), ciphertext) {
        Ok(w) => w,
        Err(number) => return number,
    };
    let small: Vec<u32> = w.iter().map(|x| x % set.l).collect();
    let (kept, tail) = small.split_at((set.mlen / set.b()) as usize);
    if tail.iter().any(|&x| x != 0) {
        return refusal::TAIL;
    }
    message.copy_from_slice(&octets::pack(set.b(), kept, set.message_octets()));
    refusal::NONE
}

/// 02, Q-8: c becomes a * b + c in R_q, n words each. Refusals 1 to 5, 18, 6, 8.
pub fn multiply_add(set: Set, a: &[u32], b: &[u32], c: &mut [u32]) -> u32 {
    let number = check_lengths(
        set,
        [
            (a.len(), Set::places),
            (b.len(), Set::places),
            (c.len(), Set::places),
        ],
    );
    if number != refusal::NONE {
        return number;
    }
    if [a, b, c].concat().iter().any(|&x| x >= set.q) {
        return refusal::COEFFICIENT;
    }
    let result = ring::multiply_add(set.q, a, b, c);
    c.copy_from_slice(&result);
    refusal::NONE
}

/// The value of a given polynomial at a given secret key. Refusals 7, 8, 14, in this order. Both
/// lengths are right.
fn value_at_secret(
    set: Set,
    secret_key: &[u8],
    degree: u32,
    polynomial: &[u8],
) -> Result<Element, u32> {
    let (u_x, u_y) = read_secret_key(set, secret_key).ok_or(refusal::PADDING)?;
    let polynomial = read_polynomial(set, degree, polynomial).ok_or(refusal::COEFFICIENT)?;
    if !ring::has_full_degree(&u_x) || !ring::has_full_degree(&u_y) {
        return Err(refusal::TOP_COEFFICIENT);
    }
    Ok(ring::value(set.q, &polynomial, &u_x, &u_y))
}

/// u_x and u_y; `None` if an unused bit isn't zero. The length is right.
pub fn read_secret_key(set: Set, secret_key: &[u8]) -> Option<(Element, Element)> {
    let (x, y) = secret_key.split_at(set.small_octets());
    let used_bits = set.places() * set.b() as usize;
    if !octets::unused_bits_are_zero(x, used_bits) || !octets::unused_bits_are_zero(y, used_bits) {
        return None;
    }
    let u_x = octets::unpack(set.b(), x, set.places());
    let u_y = octets::unpack(set.b(), y, set.places());
    Some((u_x, u_y))
}

/// The n coefficients of a message, those past mlen bits zero; `None` if an unused bit isn't
/// zero. The length is right.
pub fn read_message(set: Set, message: &[u8]) -> Option<Element> {
    if !octets::unused_bits_are_zero(message, set.mlen as usize) {
        return None;
    }
    let mut m = octets::unpack(set.b(), message, (set.mlen / set.b()) as usize);
    m.resize(set.places(), 0);
    Some(m)
}

/// A polynomial over R_q; `None` if a coefficient is q or more. The length is right.
pub fn read_polynomial(set: Set, degree: u32, octets: &[u8]) -> Option<Polynomial> {
    let words = octets::numbers_from_octets(set.qlen(), octets);
    if words.iter().any(|&x| x >= set.q) {
        return None;
    }
    Some(Polynomial::from_words(degree, set.places(), &words))
}
