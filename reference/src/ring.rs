//! Arithmetic in R_q (polynomials in t below degree n over F_q, with t^n = 1) and with
//! polynomials in x and y over R_q.

use crate::monomials::{count, monomials, position};

/// An element of R_q: n coefficients below q, from t^0 upwards.
pub type Element = Vec<u32>;

/// A polynomial in x and y of total degree at most `degree`, its elements in monomial order.
#[derive(Clone, Debug, PartialEq, Eq)]
pub struct Polynomial {
    pub degree: u32,
    pub elements: Vec<Element>,
}

impl Polynomial {
    /// From words in monomial order, n for each element.
    pub fn from_words(degree: u32, n: usize, words: &[u32]) -> Self {
        assert_eq!(words.len(), count(degree) * n);
        Polynomial {
            degree,
            elements: words.chunks(n).map(<[u32]>::to_vec).collect(),
        }
    }

    /// The words in monomial order.
    pub fn to_words(&self) -> Vec<u32> {
        self.elements.concat()
    }
}

/// Whether the degree in t is n - 1: the coefficient of t^(n - 1) isn't zero.
pub fn has_full_degree(a: &[u32]) -> bool {
    a.last().is_some_and(|&top| top != 0)
}

/// a + b in R_q.
pub fn sum(q: u32, a: &[u32], b: &[u32]) -> Element {
    assert_eq!(a.len(), b.len());
    let add = |(&x, &y)| ((u64::from(x) + u64::from(y)) % u64::from(q)) as u32;
    a.iter().zip(b).map(add).collect()
}

/// -a in R_q.
pub fn negative(q: u32, a: &[u32]) -> Element {
    let negate = |&x| ((u64::from(q) - u64::from(x)) % u64::from(q)) as u32;
    a.iter().map(negate).collect()
}

/// factor * a in R_q.
pub fn multiple(q: u32, factor: u32, a: &[u32]) -> Element {
    let times = |&x| (u64::from(factor) * u64::from(x) % u64::from(q)) as u32;
    a.iter().map(times).collect()
}

/// a * b in R_q. t^i * t^j is t^(i + j), or t^(i + j - n) where i + j >= n.
///
/// Each term is below 2^64 and there are n of them for each place, so u128 sums cannot wrap;
/// they are reduced once, at the end.
pub fn product(q: u32, a: &[u32], b: &[u32]) -> Element {
    assert_eq!(a.len(), b.len());
    let n = a.len();
    let mut sums = vec![0u128; n];
    for (i, &x) in a.iter().enumerate() {
        for (j, &y) in b.iter().enumerate() {
            let place = if i + j < n { i + j } else { i + j - n };
            sums[place] += u128::from(u64::from(x) * u64::from(y));
        }
    }
    sums.iter().map(|s| (s % u128::from(q)) as u32).collect()
}

/// a * b + c in R_q, by the matrix A of the submission's section 3.2: the result is b A + c.
///
/// Row i of A is t^i * a, which is a turned i places upwards since t^n = 1. (From n = 4 on the
/// matrix as printed has a_(n - 1) for a_2 in its last row.) The sums start with c; with n terms
/// below 2^64 each u128 cannot wrap, and they are reduced once, at the end.
pub fn multiply_add(q: u32, a: &[u32], b: &[u32], c: &[u32]) -> Element {
    assert_eq!(a.len(), b.len());
    assert_eq!(a.len(), c.len());
    let mut row = a.to_vec();
    let mut sums: Vec<u128> = c.iter().map(|&z| u128::from(z)).collect();
    for &y in b {
        for (sum, &x) in sums.iter_mut().zip(&row) {
            *sum += u128::from(x) * u128::from(y);
        }
        row.rotate_right(1);
    }
    sums.iter().map(|s| (s % u128::from(q)) as u32).collect()
}

/// The product of two polynomials in x and y.
pub fn polynomial_product(q: u32, n: usize, a: &Polynomial, b: &Polynomial) -> Polynomial {
    let degree = a.degree + b.degree;
    let mut elements = vec![vec![0; n]; count(degree)];
    for (&(i, j), x) in monomials(a.degree).iter().zip(&a.elements) {
        for (&(k, m), y) in monomials(b.degree).iter().zip(&b.elements) {
            let at = position(degree, i + k, j + m);
            elements[at] = sum(q, &elements[at], &product(q, x, y));
        }
    }
    Polynomial { degree, elements }
}

/// The value of a polynomial at (u_x, u_y): the sum of a_ij * u_x^i * u_y^j.
pub fn value(q: u32, polynomial: &Polynomial, u_x: &[u32], u_y: &[u32]) -> Element {
    let mut total = vec![0; u_x.len()];
    for (&(i, j), a) in monomials(polynomial.degree)
        .iter()
        .zip(&polynomial.elements)
    {
        let mut term = a.clone();
        for _ in 0..i {
            term = product(q, &term, u_x);
        }
        for _ in 0..j {
            term = product(q, &term, u_y);
        }
        total = sum(q, &total, &term);
    }
    total
}
