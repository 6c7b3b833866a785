//! Parameter sets to try: every l, degree and number of octets, with q at its limits.

use reference::prng::Prng;
use reference::set::{bound, set, small_bits};
use reference::Set;

/// The four l.
pub const RANGES: [u32; 4] = [2, 4, 8, 16];
/// The four pairs of dX and dr.
pub const DEGREES: [(u32, u32); 4] = [(1, 1), (1, 2), (2, 1), (2, 2)];
/// The two editions.
pub const EDITIONS: [u32; 2] = [1, 2];
/// The largest q.
pub const MOST_Q: u32 = 2_147_483_647;

/// b, for one of the four l.
pub fn bits_of(l: u32) -> u32 {
    small_bits(l).expect("one of the four")
}

/// The least accepted q, if there is one.
pub fn least_q(l: u32, n: u32, d: u32) -> Option<u32> {
    let q = bound(l, n, d) + 1;
    (q <= u128::from(MOST_Q)).then_some(q as u32)
}

/// The largest n up to 4,096 for which some q is accepted: its bound is the largest accepted one.
pub fn largest_n(l: u32, d: u32) -> u32 {
    (2..=4096)
        .rev()
        .find(|&n| least_q(l, n, d).is_some())
        .expect("n = 2 is accepted with every l and d")
}

/// The accepted q at limits: the least, the largest, both sides of each number of octets, and for
/// a random multiple s of the bound the q at which the headroom becomes s.
pub fn boundary_moduli(l: u32, n: u32, d: u32, prng: &mut Prng) -> Vec<u32> {
    let Some(least) = least_q(l, n, d) else {
        return Vec::new();
    };
    let at = least - 1;
    let mut list = vec![least, MOST_Q];
    for power in [8, 16, 24] {
        list.extend([(1 << power) - 1, 1 << power, (1 << power) + 1]);
    }
    let s = 1 + prng.below(u64::from(MOST_Q / at)) as u32;
    list.extend([s * at, (s * at).saturating_add(1)]);
    list.retain(|&q| q >= least && q <= MOST_Q);
    list.sort_unstable();
    list.dedup();
    list
}

/// An accepted q just above a power of two, so that nearly half of all groups are dropped; the
/// least q if no power of two lies above it.
pub fn dropping_modulus(least: u32, prng: &mut Prng) -> u32 {
    let first = 32 - (least - 1).leading_zeros();
    if first > 30 {
        return least;
    }
    let power = first + prng.below(u64::from(31 - first)) as u32;
    (1 << power) + prng.below(4) as u32
}

/// Any accepted q, each bit length alike.
pub fn random_modulus(least: u32, prng: &mut Prng) -> u32 {
    let first = 32 - least.leading_zeros();
    let bits = first + prng.below(u64::from(32 - first)) as u32;
    let low = least.max(1 << (bits - 1));
    let high = ((1u64 << bits) - 1).min(u64::from(MOST_Q));
    low + prng.below(high - u64::from(low) + 1) as u32
}

/// An mlen: none, one coefficient, all, all but one, or any.
pub fn random_mlen(l: u32, n: u32, prng: &mut Prng) -> u32 {
    let b = bits_of(l);
    b * match prng.below(8) {
        0 => 0,
        1 => 1,
        2 => n - 1,
        3 | 4 => n,
        _ => prng.below(u64::from(n) + 1) as u32,
    }
}

/// The set in one edition or the other.
pub fn in_any_edition(set: Set, prng: &mut Prng) -> Set {
    set.in_edition(EDITIONS[prng.below(2) as usize])
}

/// All accepted sets with this n, l and degrees: q at its limits, above a power of two and
/// anywhere; each in one edition or the other.
pub fn sets_with(l: u32, n: u32, (dx, dr): (u32, u32), prng: &mut Prng) -> Vec<Set> {
    let Some(least) = least_q(l, n, dx + dr) else {
        return Vec::new();
    };
    let mut moduli = boundary_moduli(l, n, dx + dr, prng);
    moduli.push(dropping_modulus(least, prng));
    moduli.push(random_modulus(least, prng));
    moduli
        .into_iter()
        .map(|q| {
            let set = set(l, q, n, dx, dr, random_mlen(l, n, prng));
            in_any_edition(set, prng)
        })
        .collect()
}

/// Beside the least q of a set, the first of these above it: where there is one, just above a power of two, so that
/// nearly half of all groups are dropped.
const NEXT: [u32; 3] = [65_537, 1_073_741_825, MOST_Q];

/// For every l and degree that these n allow, with full messages: the set with the least q and, where there is one, the
/// set with the next.
pub fn least_and_next(rings: &[u32]) -> Vec<(Set, Option<Set>)> {
    let mut list = Vec::new();
    for &n in rings {
        for l in RANGES {
            for (dx, dr) in DEGREES {
                let Some(least) = least_q(l, n, dx + dr) else {
                    continue;
                };
                let next = NEXT.into_iter().find(|&q| q > least);
                let set = |q| set(l, q, n, dx, dr, n * bits_of(l));
                list.push((set(least), next.map(set)));
            }
        }
    }
    list
}

/// The accepted sets with this q, n 2, 8 or 81 and full messages.
pub fn sets_of(q: u32) -> Vec<Set> {
    let mut list = Vec::new();
    for n in [2, 8, 81] {
        for l in RANGES {
            for (dx, dr) in DEGREES {
                if least_q(l, n, dx + dr).is_some_and(|least| least <= q) {
                    list.push(set(l, q, n, dx, dr, n * bits_of(l)));
                }
            }
        }
    }
    list
}
