//! check, limits and lengths beside the reference implementation.

use differential::compare::{check, lengths, limits};
use differential::run::{run_group, Run};
use differential::sets::{bits_of, random_mlen, sets_with, DEGREES, EDITIONS, MOST_Q, RANGES};
use differential::spoil::WRONG_EDITIONS;
use reference::set::{bound, set, small_bits};
use reference::Set;

/// The three calls on one set; where it is accepted, the headroom is the largest s with s * B < q.
fn all(run: &mut Run, set: Set) -> u32 {
    let number = check(run, set);
    let (same, at, s) = limits(run, set);
    run.expect(same == number, set, "check and limits give one number");
    let (same, _) = lengths(run, set);
    run.expect(same == number, set, "check and lengths give one number");
    if number == 0 {
        let (at, s, q) = (u64::from(at), u64::from(s), u64::from(set.q));
        let largest = s * at < q && q <= (s + 1) * at;
        run.expect(largest, set, "s is the largest with s * B < q");
    }
    number
}

/// An accepted edition three times in four.
fn edition(run: &mut Run) -> u32 {
    match run.prng.below(4) {
        0 => WRONG_EDITIONS[run.prng.below(8) as usize],
        _ => EDITIONS[run.prng.below(2) as usize],
    }
}

/// One set of many, in any edition.
fn one_of_many(run: &mut Run, set: Set) {
    if !run.skips() {
        let edition = edition(run);
        all(run, set.in_edition(edition));
    }
}

/// What 01 prints: worked cases 9 to 11, the lines of roomsheet, and headroom at a multiple of B; the same in both
/// editions.
fn worked(run: &mut Run) {
    for (set, number, at, s) in [
        (set(4, 1459, 2, 1, 1, 4), 0, 1455, 1),
        (set(4, 1455, 2, 1, 1, 4), 4, 0, 0),
        (set(4, 65_521, 2, 1, 1, 4), 0, 1455, 45),
        (set(4, 2910, 2, 1, 1, 4), 0, 1455, 1),
        (set(4, 2911, 2, 1, 1, 4), 0, 1455, 2),
        (set(4, 1459, 2, 1, 1, 0), 0, 1455, 1),
        (set(4, 1459, 2, 1, 1, 3), 5, 0, 0),
        (set(2, 100_679_684, 4096, 1, 1, 0), 0, 100_679_683, 1),
        (set(2, 100_679_683, 4096, 1, 1, 0), 4, 0, 0),
        (set(16, MOST_Q, 4096, 2, 2, 0), 4, 0, 0),
        (set(4, 467_424_411, 1201, 1, 1, 2402), 4, 0, 0),
        (set(4, 467_424_412, 1201, 1, 1, 2402), 0, 467_424_411, 1),
    ] {
        for set in EDITIONS.map(|edition| set.in_edition(edition)) {
            let got = limits(run, set);
            let right = got.0 == number && (number != 0 || (got.1, got.2) == (at, s));
            run.expect(right, set, "limits gives what 01 prints");
            all(run, set);
        }
    }
    let a = set(4, 1459, 2, 1, 1, 4);
    let (number, got) = lengths(run, a);
    let right = number == 0 && got == [2, 12, 1, 24, 16];
    run.expect(right, a, "lengths gives what 01 prints");
}

/// Every refusal at its boundary, together with every other.
fn grid(run: &mut Run) {
    let ranges = [
        0,
        1,
        2,
        3,
        4,
        5,
        7,
        8,
        9,
        15,
        16,
        17,
        32,
        258,
        65_540,
        u32::MAX,
    ];
    let rings = [0, 1, 2, 3, 8, 64, 4095, 4096, 4097, 65_538, u32::MAX];
    let degrees = [0, 1, 2, 3, 257, u32::MAX];
    for l in ranges {
        for n in rings {
            for dx in degrees {
                for dr in degrees {
                    for q in moduli(l, n, dx, dr) {
                        for mlen in message_sizes(l, n) {
                            one_of_many(run, set(l, q, n, dx, dr, mlen));
                        }
                    }
                }
            }
        }
    }
}

fn in_limits(l: u32, n: u32) -> bool {
    small_bits(l).is_some() && (2..=4096).contains(&n)
}

fn moduli(l: u32, n: u32, dx: u32, dr: u32) -> Vec<u32> {
    let mut list = vec![0, MOST_Q, MOST_Q + 1, u32::MAX];
    if in_limits(l, n) && (1..=2).contains(&dx) && (1..=2).contains(&dr) {
        let at = bound(l, n, dx + dr);
        for q in [at - 1, at, at + 1, 2 * at, 2 * at + 1, at % (1 << 32) + 1] {
            list.extend(u32::try_from(q).ok());
        }
    }
    list
}

fn message_sizes(l: u32, n: u32) -> Vec<u32> {
    if !in_limits(l, n) {
        return vec![0, 1, u32::MAX];
    }
    let (b, whole) = (bits_of(l), n * bits_of(l));
    vec![
        0,
        b,
        b + 1,
        whole - 1,
        whole,
        whole + 1,
        whole + b,
        u32::MAX,
        u32::MAX - 3,
    ]
}

/// Every n, at both sides of its least q.
fn every_n(run: &mut Run) {
    for l in RANGES {
        for (dx, dr) in DEGREES {
            for n in 0..4100 {
                let at = bound(l, n, dx + dr);
                for q in [at, at + 1] {
                    let q = u32::try_from(q).unwrap_or(MOST_Q);
                    let mlen = random_mlen(l, n.max(1), &mut run.prng);
                    one_of_many(run, set(l, q, n, dx, dr, mlen));
                }
            }
        }
    }
}

/// Accepted sets with q at its limits, and numbers of any kind.
fn random(run: &mut Run) {
    for _ in 0..20_000 {
        let l = RANGES[run.prng.below(4) as usize];
        let degrees = DEGREES[run.prng.below(4) as usize];
        let most = 1 << (1 + run.prng.below(12));
        let n = 2 + run.prng.below(most) as u32;
        for set in sets_with(l, n.min(4096), degrees, &mut run.prng) {
            if run.skips() {
                continue;
            }
            let number = all(run, set);
            run.expect(number == 0, set, "the set is accepted");
        }
    }
    for _ in 0..100_000 {
        let mut number = || {
            let bits = 1 + run.prng.below(32);
            run.prng.below(1 << bits) as u32
        };
        let numbers = set(number(), number(), number(), number(), number(), number());
        one_of_many(run, numbers);
    }
}

fn main() {
    let numbers: &[u32] = &[0, 1, 2, 3, 4, 5, 18];
    let calls = [
        ("check", numbers),
        ("limits", numbers),
        ("lengths", numbers),
    ];
    run_group("limits", &calls, |run| {
        worked(run);
        grid(run);
        every_n(run);
        random(run);
    });
}
