//! Pairs of coefficients with a sum of q - 1, q, q + 1 or 2q - 2, and polynomials and secret keys by
//! which they meet inside a call.

use reference::monomials::{count, monomials};
use reference::octets::{numbers_to_octets, pack};
use reference::prng::Prng;
use reference::Set;

use crate::sets::MOST_Q;

/// The least accepted q of all, 2^16 and the number before it, 2^24, and the largest q.
pub const MODULI: [u32; 5] = [36, 65_535, 65_536, 16_777_216, MOST_Q];

/// The sums of two coefficients at the limits of a reduction.
pub fn totals(q: u32) -> [u64; 4] {
    let q = u64::from(q);
    [q - 1, q, q + 1, 2 * q - 2]
}

/// A coefficient that another one brings to the total: by turns the least, the next, the middle, the
/// largest and any.
pub fn summand(q: u32, total: u64, turn: usize, prng: &mut Prng) -> u32 {
    let top = u64::from(q) - 1;
    let (least, largest) = (total.saturating_sub(top), total.min(top));
    let found = match turn % 5 {
        0 => least,
        1 => largest.min(least + 1),
        2 => total / 2,
        3 => largest,
        _ => least + prng.below(largest - least + 1),
    };
    found as u32
}

/// What each of these lacks to the total.
pub fn rest(total: u64, summands: &[u32]) -> Vec<u32> {
    let lacks = |&x| (total - u64::from(x)) as u32;
    summands.iter().map(lacks).collect()
}

/// Two lists of coefficients that give the total at each place.
pub fn summands(q: u32, total: u64, places: usize, prng: &mut Prng) -> [Vec<u32>; 2] {
    let turn = prng.below(5) as usize;
    let first: Vec<u32> = (turn..turn + places)
        .map(|turn| summand(q, total, turn, prng))
        .collect();
    let second = rest(total, &first);
    [first, second]
}

/// Two lists that give q at each place but one, and there the total.
pub fn all_but_one(set: Set, total: u64, place: usize, prng: &mut Prng) -> [Vec<u32>; 2] {
    let [mut a, mut b] = summands(set.q, u64::from(set.q), set.places(), prng);
    let one = summand(set.q, total, place, prng);
    (a[place], b[place]) = (one, rest(total, &[one])[0]);
    [a, b]
}

/// Two lists that give several totals by turns.
pub fn mixed_summands(q: u32, totals: &[u64], places: usize, prng: &mut Prng) -> [Vec<u32>; 2] {
    let (mut first, mut second) = (Vec::new(), Vec::new());
    for place in 0..places {
        let (turn, which) = (place / totals.len(), place % totals.len());
        first.push(summand(q, totals[which], turn, prng));
        second.extend(rest(totals[which], &first[place..]));
    }
    [first, second]
}

/// The element times t^power.
pub fn turned(element: &[u32], power: usize) -> Vec<u32> {
    let mut found = element.to_vec();
    found.rotate_right(power % element.len());
    found
}

/// The element that gives these numbers when it is multiplied by t^power.
pub fn turned_back(numbers: &[u32], power: usize) -> Vec<u32> {
    turned(numbers, numbers.len() - power % numbers.len())
}

/// The sum of these powers of t.
pub fn powers_of_t(set: Set, powers: &[usize]) -> Vec<u32> {
    let mut element = vec![0; set.places()];
    for power in powers {
        element[power % set.places()] += 1;
    }
    element
}

/// Elements with their places in monomial order.
pub type Elements = Vec<(usize, Vec<u32>)>;

/// The octets of a polynomial in which all but these elements are zero.
pub fn polynomial(set: Set, degree: u32, elements: &Elements) -> Vec<u8> {
    let n = set.places();
    let mut words = vec![0; count(degree) * n];
    for (at, element) in elements {
        words[at * n..][..n].copy_from_slice(element);
    }
    numbers_to_octets(set.qlen(), &words)
}

/// The packed octets of small elements, one after another.
pub fn packed(set: Set, elements: &[Vec<u32>]) -> Vec<u8> {
    let pack = |element: &Vec<u32>| pack(set.b(), element, set.small_octets());
    elements.iter().flat_map(pack).collect()
}

/// A secret key of two powers of t, and a polynomial whose value there is the sum of these elements, place by place:
/// each is turned back by what its monomial turns it.
pub fn meeting(set: Set, degree: u32, mut elements: Elements, powers: [usize; 2]) -> [Vec<u8>; 2] {
    let [x, y] = powers;
    let list = monomials(degree);
    for (at, element) in &mut elements {
        let (i, j) = list[*at];
        *element = turned_back(element, i as usize * x + j as usize * y);
    }
    let small = powers.map(|power| powers_of_t(set, &[power]));
    [packed(set, &small), polynomial(set, degree, &elements)]
}

/// What encrypt is given: the elements of X, r and e that aren't zero, and m.
#[derive(Default)]
pub struct Parts {
    pub key: Elements,
    pub r: Elements,
    pub e: Elements,
    pub message: Vec<u32>,
}

impl Parts {
    /// The octets of the public key, of the message and those that r and e are drawn from.
    pub fn octets(&self, set: Set) -> [Vec<u8>; 3] {
        let mut e = vec![vec![0; set.places()]; count(set.d())];
        for (at, element) in &self.e {
            e[*at].clone_from(element);
        }
        [
            polynomial(set, set.dx, &self.key),
            pack(set.b(), &self.message, set.message_octets()),
            [polynomial(set, set.dr, &self.r), packed(set, &e)].concat(),
        ]
    }
}
