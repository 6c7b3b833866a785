//! What was tried in a round, and what has to be.

use std::collections::{BTreeMap, BTreeSet};

use differential::claimed::{all_tried, least_and_next};
use differential::inputs::top_bits;
use differential::run::Run;
use differential::sets::RANGES;
use reference::monomials::count;
use reference::set::set;
use reference::Set;

/// The calls that are given a secret key.
#[derive(Clone, Copy, Debug, PartialEq, Eq, PartialOrd, Ord)]
pub enum Call {
    Decrypt,
    IsZero,
}

/// The coefficients of an element but the top one.
#[derive(Clone, Copy, Debug, PartialEq, Eq, PartialOrd, Ord)]
pub enum Others {
    Zero,
    /// l - 1; where the element is drawn, its unused bits are 1.
    Full,
    Any,
}

pub const OTHERS: [Others; 3] = [Others::Zero, Others::Full, Others::Any];

/// What was tried with a set. `which` is 0 for u_x and 1 for u_y.
#[derive(Clone, Debug, PartialEq, Eq, PartialOrd, Ord)]
pub enum Tried {
    /// keygen drops so many elements before u_x and so many before u_y.
    Drops([usize; 2]),
    /// It drops groups too.
    DropsGroups([usize; 2]),
    /// It drops an element with these other coefficients.
    DropsOf { which: usize, others: Others },
    /// It drops an element in which this bit alone is 1.
    DropsBit { which: usize, bit: usize },
    /// It keeps an element with these other coefficients.
    KeepsOf { which: usize, others: Others },
    /// It keeps an element in which this bit alone is 1.
    KeepsBit { which: usize, bit: usize },
    /// It keeps zeros as the elements of the public key.
    KeepsPublicKey,
    /// So many zeros, alone or behind u_x, aren't enough for it.
    Zeros { which: usize, octets: usize },
    /// The octets end so many octets after elements that are dropped.
    Ends { which: usize, octets: usize },
    /// So many octets are missing at the end, and elements are dropped before both.
    Short { octets: usize },
    /// encrypt keeps this noise element, whose top coefficient alone is zero.
    Noise(usize),
    /// It keeps noise elements whose top coefficients are all zero.
    AllNoise(Others),
    /// A secret key is given.
    Given(Given),
    /// The same where the length of this buffer is wrong.
    GivenLength {
        call: Call,
        zero: [bool; 2],
        buffer: usize,
    },
}

/// A secret key that a call is given.
#[derive(Clone, Debug, PartialEq, Eq, PartialOrd, Ord)]
pub struct Given {
    pub call: Call,
    /// Whether the top coefficient of each element is zero.
    pub zero: [bool; 2],
    pub others: Others,
    /// What the call is given besides is refused by these numbers.
    pub with: Vec<u32>,
}

/// A set without its message length: l, q, n, dX, dr and the edition.
type Numbers = [u32; 6];

#[derive(Default)]
pub struct All {
    tried: BTreeSet<(Numbers, Tried)>,
    /// For each l, the elements that keygen dropped on any octets.
    pub any: BTreeMap<u32, u64>,
}

fn numbers_of(set: Set) -> Numbers {
    [set.l, set.q, set.n, set.dx, set.dr, set.edition]
}

impl All {
    pub fn note(&mut self, set: Set, what: Tried) {
        self.tried.insert((numbers_of(set), what));
    }
}

/// The coefficients of an element but the top one that have to be tried.
const CLAIMED: [Others; 3] = [Others::Zero, Others::Full, Others::Any];

/// What has to be tried with a secret key in which these top coefficients are zero.
fn given_claims(set: Set, zero: [bool; 2]) -> Vec<Tried> {
    let unused = !(set.n * set.b()).is_multiple_of(8);
    let mut list = Vec::new();
    for (call, numbers, buffers) in [
        (Call::Decrypt, [6, 7, 8, 10].as_slice(), 4),
        (Call::IsZero, &[6, 7, 8], 3),
    ] {
        let mut subsets = vec![Vec::new()];
        for &number in numbers.iter().filter(|&&number| number != 7 || unused) {
            let with_it = |one: &Vec<u32>| [&one[..], &[number]].concat();
            let with_it: Vec<Vec<u32>> = subsets.iter().map(with_it).collect();
            subsets.extend(with_it);
        }
        for with in subsets {
            list.extend(CLAIMED.map(|others| {
                let with = with.clone();
                Tried::Given(Given {
                    call,
                    zero,
                    others,
                    with,
                })
            }));
        }
        list.extend((0..buffers).map(|buffer| Tried::GivenLength { call, zero, buffer }));
    }
    list
}

/// What has to be tried with a set of large n.
fn large_claims(set: Set) -> Vec<Tried> {
    let small = set.small_octets();
    let mut list = vec![
        Tried::DropsGroups([3, 3]),
        Tried::Short { octets: 1 },
        Tried::AllNoise(Others::Full),
    ];
    for which in [0, 1] {
        let bits = 0..8 * small;
        list.extend(bits.map(|bit| match top_bits(set).contains(&bit) {
            true => Tried::KeepsBit { which, bit },
            false => Tried::DropsBit { which, bit },
        }));
        list.extend(CLAIMED.map(|others| Tried::DropsOf { which, others }));
        let zeros = [0, 1, 40, 41, 1000, 10_000];
        list.extend(zeros.map(|octets| Tried::Zeros { which, octets }));
        list.extend([0, 1, small - 1].map(|octets| Tried::Ends { which, octets }));
    }
    for zero in [[true, false], [false, true], [true, true]] {
        list.extend(given_claims(set, zero));
    }
    list
}

/// What has to be tried with a set of small n: what has to be with one of large n, and more.
fn small_claims(set: Set) -> Vec<Tried> {
    let mut list = large_claims(set);
    for x in [0, 1, 2, 3, 300] {
        list.extend([0, 1, 2, 3, 300].map(|y| Tried::Drops([x, y])));
    }
    if (set.l, set.n, set.dx, set.dr) == (2, 2, 1, 1) {
        list.extend([[65_537, 0], [0, 65_537]].map(Tried::Drops));
    }
    list.extend([[0, 1], [1, 0]].map(Tried::DropsGroups));
    list.push(Tried::KeepsPublicKey);
    for which in [0, 1] {
        list.extend(CLAIMED.map(|others| Tried::KeepsOf { which, others }));
        let octets = 0..set.small_octets();
        list.extend(octets.map(|octets| Tried::Ends { which, octets }));
    }
    list.extend((0..count(set.d())).map(Tried::Noise));
    list.extend(CLAIMED.map(Tried::AllNoise));
    list.extend(given_claims(set, [false, false]));
    list
}

/// Everything was tried. Not by the lists of the round, so that what is left out there is missed here.
pub fn complete(run: &Run, all: &All) {
    let was_tried =
        |set: Set, list: Vec<Tried>| all_tried(run, &all.tried, set, numbers_of(set), list);
    for (least, next) in least_and_next(&[2, 3, 5, 6, 8, 9, 81]) {
        was_tried(least, small_claims(least));
        if let Some(next) = next.map(|set| set.in_edition(2)) {
            was_tried(next, small_claims(next));
        }
    }
    for (l, q, n, edition) in [
        (2, 16_777_217, 1201, 1),
        (4, 1_073_741_825, 1201, 2),
        (2, 1_073_741_825, 4096, 2),
    ] {
        let set = set(l, q, n, 1, 1, 0).in_edition(edition);
        was_tried(set, large_claims(set));
    }
    for l in RANGES {
        let dropped = all.any.get(&l).is_some_and(|&dropped| dropped > 0);
        let words = "of any octets some elements are dropped";
        run.expect(dropped, set(l, 0, 0, 0, 0, 0), words);
    }
}
