//! What a round has to try: sets, each l and degree with two q, whatever q the lists of `sets` choose, and that all was tried with a set.

use std::collections::BTreeSet;
use std::fmt::Debug;

use reference::set::set;
use reference::Set;

use crate::run::Run;
use crate::sets::{least_q, DEGREES, RANGES};

/// For each l and degree that these n allow: the least q and, where there is one, the first of these q above it;
/// message lengths apart.
pub fn least_and_next(rings: &[u32]) -> Vec<(Set, Option<Set>)> {
    let mut list = Vec::new();
    for &n in rings {
        for (l, (dx, dr)) in RANGES.into_iter().flat_map(|l| DEGREES.map(|d| (l, d))) {
            if let Some(least) = least_q(l, n, dx + dr) {
                let mut next = [65_537, 1_073_741_825, 2_147_483_647].into_iter();
                let set = |q| set(l, q, n, dx, dr, 0);
                list.push((set(least), next.find(|&q| q > least).map(set)));
            }
        }
    }
    list
}

/// Each of a list stands among what was tried, beside the numbers of the set.
pub fn all_tried<N: Copy + Ord, T: Debug + Ord>(
    run: &Run,
    tried: &BTreeSet<(N, T)>,
    set: Set,
    numbers: N,
    list: Vec<T>,
) {
    for what in list {
        let words = format!("{what:?} was tried");
        run.expect(tried.contains(&(numbers, what)), set, &words);
    }
}
