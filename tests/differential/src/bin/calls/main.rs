//! keygen, is_zero, encrypt, add and decrypt beside the reference implementation.

mod additions;
mod headroom;
mod refusals;
mod scenario;
mod worked;

use differential::run::{run_group, Run};
use differential::sets::{
    bits_of, dropping_modulus, in_any_edition, largest_n, least_q, sets_with, DEGREES, MOST_Q,
    RANGES,
};
use reference::set::set;
use reference::Set;

/// Every l and degree with n from 2 to 17: q at its limits, above a power of two and anywhere.
fn small_rings(run: &mut Run) {
    let mut seen = [[false; 5]; 4];
    for n in 2..=17 {
        for (at, l) in RANGES.into_iter().enumerate() {
            for degrees in DEGREES {
                for set in sets_with(l, n, degrees, &mut run.prng) {
                    seen[at][set.qlen()] = true;
                    if run.skips() {
                        continue;
                    }
                    scenario::all(run, set);
                    scenario::draws(run, set, 3);
                    refusals::all(run, set, 20);
                }
            }
        }
    }
    // Every number of octets that an accepted q of this l can have.
    for (at, l) in RANGES.into_iter().enumerate() {
        let least = u64::from(least_q(l, 2, 2).expect("accepted"));
        for (qlen, &seen) in seen[at].iter().enumerate() {
            assert_eq!(seen, least < 1 << (8 * qlen), "l {l}, qlen {qlen}");
        }
    }
}

/// Every n from 18 to 200, and some up to 2000: each call with one set.
fn middle_rings(run: &mut Run) {
    let some = (0..40).map(|_| {
        let most = 1 << (8 + run.prng.below(4));
        200 + run.prng.below(most - 100) as u32
    });
    for n in (18..=200).chain(some.collect::<Vec<_>>()) {
        let fits = |&(l, (dx, dr)): &(u32, (u32, u32))| least_q(l, n, dx + dr).is_some();
        let list: Vec<_> = RANGES
            .into_iter()
            .flat_map(|l| DEGREES.map(|degrees| (l, degrees)))
            .filter(fits)
            .collect();
        let (l, degrees) = list[run.prng.below(list.len() as u64) as usize];
        let sets = sets_with(l, n, degrees, &mut run.prng);
        let set = sets[run.prng.below(sets.len() as u64) as usize];
        if run.skips() {
            continue;
        }
        scenario::once(run, set);
        scenario::top(run, set);
    }
}

/// Sets with a full message and q the least, the largest and above a power of two, each in one edition or the other.
fn tight(l: u32, n: u32, (dx, dr): (u32, u32), run: &mut Run) -> Vec<Set> {
    let Some(least) = least_q(l, n, dx + dr) else {
        return Vec::new();
    };
    let dropping = dropping_modulus(least, &mut run.prng);
    let set = |q| set(l, q, n, dx, dr, n * bits_of(l));
    [least, MOST_Q, dropping]
        .map(|q| in_any_edition(set(q), &mut run.prng))
        .to_vec()
}

/// n = 64, and for each l and degree the largest n: the largest accepted bounds. Rings of thousands
/// of places take most of the time and have few rounds.
fn large_rings(run: &mut Run) {
    for l in RANGES {
        for degrees in DEGREES {
            for n in [64, largest_n(l, degrees.0 + degrees.1)] {
                for set in tight(l, n, degrees, run) {
                    if run.skips() {
                        continue;
                    }
                    if n > 2000 && set.q == MOST_Q {
                        scenario::top(run, set);
                    } else if n > 2000 {
                        scenario::once(run, set);
                    } else {
                        scenario::all(run, set);
                        scenario::top(run, set);
                        refusals::all(run, set, 0);
                    }
                }
            }
        }
    }
    for set in tight(4, 1201, (1, 1), run) {
        if run.skips() {
            continue;
        }
        let partial = Set {
            mlen: set.mlen / 3 * 2,
            ..set
        };
        scenario::once(run, set);
        scenario::once(run, partial);
        scenario::top(run, set);
    }
    let table_5 = set(4, 467_424_413, 1201, 1, 1, 2402);
    if !run.skips() {
        scenario::all(run, table_5);
    }
    let blank = set(2, 100_679_684, 4096, 1, 1, 0);
    scenario::once(run, blank.in_edition(2));
}

fn main() {
    let numbers: [(&str, &[u32]); 5] = [
        ("keygen", &[0, 1, 2, 3, 4, 5, 18, 6, 9]),
        ("is_zero", &[0, 1, 2, 3, 4, 5, 18, 6, 7, 8, 14]),
        ("encrypt", &[0, 1, 2, 3, 4, 5, 18, 6, 7, 8, 9]),
        ("add", &[0, 1, 2, 3, 4, 5, 18, 6, 8]),
        ("decrypt", &[0, 1, 2, 3, 4, 5, 18, 6, 7, 8, 14, 10]),
    ];
    run_group("calls", &numbers, |run| {
        worked::all(run);
        small_rings(run);
        middle_rings(run);
        headroom::all(run);
        large_rings(run);
    });
}
