//! The octets that keygen and encrypt use, written out without the reference implementation.

use reference::Set;

/// (d + 1)(d + 2) / 2.
fn monomials(d: u32) -> u64 {
    u64::from((d + 1) * (d + 2) / 2)
}

/// The bit length of q divided by 8, rounded up.
fn qlen(set: Set) -> u64 {
    u64::from(32 - set.q.leading_zeros()).div_ceil(8)
}

/// n * b / 8, rounded up.
fn small(set: Set) -> u64 {
    u64::from(set.n * set.l.ilog2()).div_ceil(8)
}

/// Two small elements, the coefficients of each key element but the constant, in edition 2 as many as the constant has,
/// the dropped groups and the dropped elements.
pub fn keygen(set: Set, dropped_groups: u64, dropped_elements: u64) -> u64 {
    let drawn = monomials(set.dx) - 1 + u64::from(set.edition == 2);
    let coefficients = drawn * u64::from(set.n);
    let fixed = 2 * small(set) + qlen(set) * coefficients;
    fixed + qlen(set) * dropped_groups + small(set) * dropped_elements
}

/// The coefficients of r, the small elements of e, and the dropped groups.
pub fn encrypt(set: Set, dropped_groups: u64) -> u64 {
    let coefficients = monomials(set.dr) * u64::from(set.n);
    let fixed = qlen(set) * coefficients + monomials(set.dx + set.dr) * small(set);
    fixed + qlen(set) * dropped_groups
}
