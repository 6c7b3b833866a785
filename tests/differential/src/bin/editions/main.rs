//! The edition of a set (document 02, Q-7), beside the reference implementation: keygen in both editions on the same
//! octets, all other calls alike in both, and refusal 18. What has to come out is known without it.

mod alike;
mod calls;
mod keys;
mod tried;

use differential::cases::{A, KEY_RANDOM, PUBLIC_KEY, SECRET_KEY, THROWN};
use differential::compare::{check, keygen, KeygenLengths};
use differential::run::{run_group, Run};
use differential::sets::{bits_of, least_and_next};
use reference::set::set;
use reference::Set;

use crate::keys::Trial;
use crate::tried::{complete, All};

/// Every l and degree that these n allow, with two q each.
fn small_sets() -> Vec<Set> {
    let pairs = least_and_next(&[2, 3, 8, 9, 81]).into_iter();
    let both = pairs.flat_map(|(least, next)| [Some(least), next]);
    both.flatten().collect()
}

/// With dX 2 the largest n that this q allows.
fn large_sets() -> [Set; 3] {
    [
        (2, 16_777_217, 1201, 1),
        (4, 1_073_741_825, 1201, 1),
        (2, 1_073_741_825, 511, 2),
    ]
    .map(|(l, q, n, dx)| set(l, q, n, dx, 1, n * bits_of(l)))
}

/// Sets with unused bits in a small element and in a message, and with a tail.
const REFUSED: [Set; 4] = [
    set(8, 1_048_573, 9, 1, 1, 21),
    set(4, 1459, 2, 1, 1, 2),
    set(2, 32_769, 3, 2, 2, 2),
    set(2, 1_000_003, 9, 2, 1, 5),
];

/// 01's case 2 in both editions.
fn worked_keys(run: &mut Run) {
    let longer = [&KEY_RANDOM[..], &THROWN].concat();
    for (edition, random, told) in [
        (1, &KEY_RANDOM[..], Some([10, 0, 0])),
        (1, &longer, Some([10, 0, 0])),
        (2, &longer, Some([16, 1, 0])),
        (2, &KEY_RANDOM, None),
        (2, &longer[..15], None),
        (2, &longer[..12], None),
        (1, &KEY_RANDOM[..9], None),
    ] {
        let set = A.in_edition(edition);
        let keys = keygen(run, set, random, KeygenLengths::of(set));
        let right = match told {
            Some(told) => {
                keys.number == 0
                    && [keys.used, keys.dropped_groups, keys.dropped_elements] == told
                    && keys.secret_key == SECRET_KEY
                    && keys.public_key == PUBLIC_KEY
            }
            None => keys.number == 9,
        };
        run.expect(right, set, "case 2 in both editions");
    }
}

/// 18 with a wrong length and without; after 4 and 5.
fn worked_refusals(run: &mut Run) {
    let right = KeygenLengths::of(A);
    let wrong = KeygenLengths { work: 15, ..right };
    for (set, lengths, wanted) in [
        (A.in_edition(3), wrong, 18),
        (A.in_edition(3), right, 18),
        (A.in_edition(0), right, 18),
        (A.in_edition(u32::MAX), right, 18),
        (Set { q: 1455, ..A }.in_edition(3), right, 4),
        (Set { mlen: 3, ..A }.in_edition(3), right, 5),
        (A.in_edition(2), wrong, 6),
    ] {
        let number = keygen(run, set, &KEY_RANDOM, lengths).number;
        run.expect(number == wanted, set, "an edition that isn't accepted");
        let of_set = check(run, set);
        let right = of_set == if wanted == 6 { 0 } else { wanted };
        run.expect(right, set, "the same of the set alone");
    }
}

fn round(run: &mut Run) {
    let mut all = All::default();
    worked_keys(run);
    worked_refusals(run);
    for set in small_sets().into_iter().chain(large_sets()) {
        if run.skips() {
            continue;
        }
        let all = &mut all;
        match set.n {
            ..=81 => Trial::new(run, all, set).everything(),
            _ => Trial::new(run, all, set).few(),
        }
        alike::accepted(run, all, set);
        if set.n <= 511 {
            alike::exchanged(run, all, set);
        }
    }
    for set in REFUSED {
        alike::refused(run, &mut all, set);
    }
    if !run.is_short() {
        complete(run, &all);
    }
}

fn main() {
    let of_set: &[u32] = &[0, 1, 2, 3, 4, 5, 18];
    let numbers: Vec<(&str, Vec<u32>)> = calls::calls()
        .into_iter()
        .map(|call| (call.name(), [of_set, call.refusals()].concat()))
        .collect();
    let numbers: Vec<(&str, &[u32])> = numbers
        .iter()
        .map(|(call, list)| (*call, &list[..]))
        .collect();
    run_group("editions", &numbers, round);
}
