//! What was tried in a round, and what has to be.

use std::collections::BTreeSet;

use differential::claimed::{all_tried, least_and_next};
use differential::run::Run;
use differential::used;
use reference::set::set;
use reference::Set;

/// What edition 2 throws away.
#[derive(Clone, Copy, Debug, PartialEq, Eq, PartialOrd, Ord)]
pub enum Thrown {
    Zeros,
    /// q - 1.
    Tops,
    Any,
}

/// Which editions random octets are enough for.
#[derive(Clone, Copy, Debug, PartialEq, Eq, PartialOrd, Ord)]
pub enum Enough {
    Neither,
    First,
    Both,
}

impl Enough {
    /// What keygen answers in each edition.
    pub fn numbers(self) -> [u32; 2] {
        match self {
            Enough::Neither => [9, 9],
            Enough::First => [0, 9],
            Enough::Both => [0, 0],
        }
    }
}

/// What was tried with a set, in both editions.
#[derive(Clone, Debug, PartialEq, Eq, PartialOrd, Ord)]
pub enum Tried {
    /// keygen drops no group.
    Nowhere,
    /// It drops so many groups before this draw alone; those of the key come before those that are thrown away.
    Before { draw: usize, groups: usize },
    /// It drops groups before some draws.
    Somewhere,
    /// It drops groups before every draw.
    Everywhere,
    /// It drops so many elements before u_x and so many before u_y.
    Elements([usize; 2]),
    /// It throws these away.
    Thrown(Thrown),
    /// The octets end after so many.
    Ends(usize),
    /// Any octets.
    Any(Enough),
    /// Keys made in one edition and used in another.
    Exchanged { made: u32, used: u32 },
    /// A call with what these numbers refuse, also in an edition that isn't accepted.
    With { call: &'static str, list: Vec<u32> },
    /// A call in an edition that isn't accepted.
    Edition { call: &'static str, edition: u32 },
    /// A call where the length of this buffer is wrong, also in an edition that isn't accepted.
    Length { call: &'static str, buffer: usize },
}

impl Tried {
    /// What it is to drop so many groups before each draw.
    pub fn dropped(before: &[usize]) -> Self {
        let some: Vec<usize> = (0..before.len()).filter(|&draw| before[draw] > 0).collect();
        match some[..] {
            [] => Tried::Nowhere,
            [draw] => Tried::Before {
                draw,
                groups: before[draw],
            },
            _ if some.len() == before.len() => Tried::Everywhere,
            _ => Tried::Somewhere,
        }
    }
}

#[derive(Default)]
pub struct All {
    tried: BTreeSet<([u32; 5], Tried)>,
}

/// A set without its message length and its edition.
fn numbers_of(set: Set) -> [u32; 5] {
    [set.l, set.q, set.n, set.dx, set.dr]
}

impl All {
    pub fn note(&mut self, set: Set, what: Tried) {
        self.tried.insert((numbers_of(set), what));
    }
}

/// The calls, how many buffers of an exact length each has, and the refusals of what they are given.
const CALLS: [(&str, usize, &[u32]); 19] = [
    ("check", 0, &[]),
    ("limits", 0, &[]),
    ("lengths", 0, &[]),
    ("keygen", 3, &[6, 9]),
    ("is_zero", 3, &[6, 7, 8, 14]),
    ("encrypt", 4, &[6, 7, 8, 9]),
    ("add", 3, &[6, 8]),
    ("decrypt", 4, &[6, 7, 8, 14, 10]),
    ("multiply_add", 3, &[6, 8]),
    ("element_from_octets", 2, &[6, 8]),
    ("element_to_octets", 2, &[6, 8]),
    ("small_from_octets", 2, &[6, 7]),
    ("small_to_octets", 2, &[6, 8]),
    ("secret_key_from_octets", 2, &[6, 7]),
    ("secret_key_to_octets", 2, &[6, 8]),
    ("public_key_from_octets", 2, &[6, 8]),
    ("public_key_to_octets", 2, &[6, 8]),
    ("ciphertext_from_octets", 2, &[6, 8]),
    ("ciphertext_to_octets", 2, &[6, 8]),
];

/// What has to be tried where calls are refused.
fn refused_claims() -> Vec<Tried> {
    let mut list = Vec::new();
    for (call, buffers, own) in CALLS {
        let with = |list: &[u32]| {
            let list = list.to_vec();
            Tried::With { call, list }
        };
        list.push(with(own));
        let numbers = [&[1, 2, 3, 4, 5], own].concat();
        for (at, &first) in numbers.iter().enumerate() {
            list.push(with(&[first]));
            list.extend(
                numbers[at + 1..]
                    .iter()
                    .map(|&second| with(&[first, second])),
            );
        }
        let editions = [0, 3, 4, 257, 258, 65_538, 2_147_483_648, 4_294_967_295];
        list.extend(editions.map(|edition| Tried::Edition { call, edition }));
        list.extend((0..buffers).map(|buffer| Tried::Length { call, buffer }));
    }
    list
}

/// What has to be tried with a set of large n.
fn large_claims(set: Set) -> Vec<Tried> {
    let n = set.n as usize;
    let key = if set.dx == 1 { 2 * n } else { 5 * n };
    let mut list = vec![
        Tried::Before {
            draw: key,
            groups: 1,
        },
        Tried::Before {
            draw: key + n - 1,
            groups: 3,
        },
        Tried::Everywhere,
        Tried::Thrown(Thrown::Any),
    ];
    list.extend([Enough::Neither, Enough::First, Enough::Both].map(Tried::Any));
    // A group is dropped before the last draw of the key, and two among those that are thrown away.
    let short = used::keygen(set, 1, 0) as usize;
    let long = used::keygen(set.in_edition(2), 3, 0) as usize;
    let ends = short - 1..=short + 2 * set.qlen();
    list.extend(ends.chain(long - 2 * set.qlen()..=long).map(Tried::Ends));
    if n <= 511 {
        let editions = [(1, 1), (1, 2), (2, 1), (2, 2)];
        list.extend(editions.map(|(made, used)| Tried::Exchanged { made, used }));
    }
    let accepted = |(call, _, _)| Tried::With {
        call,
        list: Vec::new(),
    };
    list.extend(CALLS.map(accepted));
    list
}

/// What has to be tried with a set of small n: what has to be with one of large n, and more.
fn small_claims(set: Set) -> Vec<Tried> {
    let n = set.n as usize;
    let key = if set.dx == 1 { 2 * n } else { 5 * n };
    let mut list = large_claims(set);
    let thrown = (key..key + n).filter(|draw| n < 81 || [0, 40, 80].contains(&(draw - key)));
    for draw in thrown.chain([0, key - 1]) {
        list.extend([1, 3].map(|groups| Tried::Before { draw, groups }));
    }
    if (set.l, set.n, set.dx, set.dr) == (2, 2, 1, 1) {
        let groups = 65_537;
        list.extend([key, key + 1].map(|draw| Tried::Before { draw, groups }));
    }
    list.push(Tried::Nowhere);
    list.extend([Thrown::Zeros, Thrown::Tops].map(Tried::Thrown));
    list.extend([[1, 0], [0, 1], [3, 2]].map(Tried::Elements));
    if n < 81 {
        let long = used::keygen(set.in_edition(2), 3, 0) as usize;
        list.extend((0..=long).map(Tried::Ends));
    }
    list
}

/// Everything was tried. Not by the lists of the round, so that what is left out there is missed here.
pub fn complete(run: &Run, all: &All) {
    let was_tried =
        |set: Set, list: Vec<Tried>| all_tried(run, &all.tried, set, numbers_of(set), list);
    for (least, next) in least_and_next(&[2, 3, 8, 9, 81]) {
        for set in [Some(least), next].into_iter().flatten() {
            was_tried(set, small_claims(set));
        }
    }
    for (l, q, n, dx) in [
        (2, 16_777_217, 1201, 1),
        (4, 1_073_741_825, 1201, 1),
        (2, 1_073_741_825, 511, 2),
    ] {
        let set = set(l, q, n, dx, 1, 0);
        was_tried(set, large_claims(set));
    }
    for (l, q, n, dx, dr) in [
        (8, 1_048_573, 9, 1, 1),
        (4, 1459, 2, 1, 1),
        (2, 32_769, 3, 2, 2),
        (2, 1_000_003, 9, 2, 1),
    ] {
        was_tried(set(l, q, n, dx, dr, 0), refused_claims());
    }
}
