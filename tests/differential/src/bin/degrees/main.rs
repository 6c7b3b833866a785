//! Secret keys whose elements have degree n - 1 (document 02, Q-3), beside the reference implementation: elements that
//! keygen drops, noise that encrypt keeps, and secret keys that decrypt and is_zero refuse. What has to come out is
//! known without it.

mod dropped;
mod given;
mod noise;
mod tried;

use differential::cases::{
    begun_with, A, DROPPED_ELEMENTS, ELEMENTS, GIVEN_SECRETS, PUBLIC_KEY, SECRET_KEY,
};
use differential::compare::{decrypt, is_zero, keygen, DecryptLengths, KeygenLengths};
use differential::run::{run_group, Run};
use differential::sets::{bits_of, least_and_next};
use reference::set::set;
use reference::Set;

use crate::dropped::Trial;
use crate::tried::{complete, All, Others};

/// With l 8 the top coefficient of n 3 and n 6 lies in two octets.
const RINGS: [u32; 7] = [2, 3, 5, 6, 8, 9, 81];

/// The least q in edition 1, the other in edition 2.
fn small_sets() -> Vec<Set> {
    let pairs = least_and_next(&RINGS).into_iter();
    let in_both =
        |(least, next): (Set, Option<Set>)| [Some(least), next.map(|set| set.in_edition(2))];
    pairs.flat_map(in_both).flatten().collect()
}

fn large_sets() -> [Set; 3] {
    [
        (2, 16_777_217, 1201, 1),
        (4, 1_073_741_825, 1201, 2),
        (2, 1_073_741_825, 4096, 2),
    ]
    .map(|(l, q, n, edition)| set(l, q, n, 1, 1, n * bits_of(l)).in_edition(edition))
}

/// Case 2's keys with dropped elements before them, zeros, and single elements with l 8.
fn worked_keys(run: &mut Run) {
    for (random, wanted) in DROPPED_ELEMENTS {
        let keys = keygen(run, A, random, KeygenLengths::of(A));
        let told = [keys.used, keys.dropped_groups, keys.dropped_elements];
        let right = keys.number == 0
            && told == wanted
            && keys.secret_key == SECRET_KEY
            && keys.public_key == PUBLIC_KEY;
        run.expect(right, A, "case 2 with dropped elements");
    }
    let keys = keygen(run, A, &[0; 40], KeygenLengths::of(A));
    run.expect(keys.number == 9, A, "forty zeros are 9");
    for (set, element, kept) in ELEMENTS {
        let keys = keygen(run, set, &begun_with(element), KeygenLengths::of(set));
        let right = keys.number == 0 && keys.dropped_elements == u64::from(!kept);
        run.expect(right, set, "the top coefficient with l 8");
    }
}

/// Case 3 decrypted, and case 2's key tried, with other secret keys.
fn worked_secrets(run: &mut Run) {
    for given in GIVEN_SECRETS {
        let set = Set {
            mlen: given.mlen,
            ..A
        };
        let [ciphertext, public_key] = given.polynomials();
        let lengths = DecryptLengths::of(set);
        let (first, _) = decrypt(run, set, &given.octets, &ciphertext, lengths);
        let (second, _) = is_zero(run, set, &given.octets, &public_key, set.work_words());
        run.expect([first, second] == given.answers, set, "a given secret key");
    }
}

fn round(run: &mut Run) {
    let mut all = All::default();
    worked_keys(run);
    worked_secrets(run);
    for set in small_sets().into_iter().chain(large_sets()) {
        if run.skips() {
            continue;
        }
        let all = &mut all;
        if set.n <= 81 {
            Trial::new(run, all, set).everything();
            noise::everything(run, all, set);
            given::everything(run, all, set);
        } else {
            Trial::new(run, all, set).few();
            noise::all_elements(run, all, set, Others::Full);
            given::refused(run, all, set);
        }
    }
    if !run.is_short() {
        complete(run, &all);
    }
}

fn main() {
    let numbers: [(&str, &[u32]); 4] = [
        ("keygen", &[0, 9]),
        ("encrypt", &[0]),
        ("decrypt", &[0, 6, 7, 8, 14, 10]),
        ("is_zero", &[0, 6, 7, 8, 14]),
    ];
    run_group("degrees", &numbers, round);
}
