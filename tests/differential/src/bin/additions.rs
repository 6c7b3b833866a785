//! add beside the reference implementation, without the other calls.

#[path = "calls/additions.rs"]
mod additions;

use differential::run::{run_group, Run};
use differential::sets::{sets_with, DEGREES, RANGES};

fn round(run: &mut Run) {
    for n in (2..=17).chain([64, 510, 1201, 4096]) {
        for l in RANGES {
            for degrees in DEGREES {
                for set in sets_with(l, n, degrees, &mut run.prng) {
                    if run.skips() {
                        continue;
                    }
                    additions::sums(run, set, &[]);
                    additions::refusals(run, set, if n < 100 { 20 } else { 0 });
                }
            }
        }
    }
}

fn main() {
    let numbers: [(&str, &[u32]); 1] = [("add", &[0, 1, 2, 3, 4, 5, 18, 6, 8])];
    run_group("additions", &numbers, round);
}
