//! multiply_add beside the reference implementation: c becomes a * b + c. Much of what comes out is known
//! without it.

use std::collections::BTreeSet;

use differential::compare::{multiply_add, square_add};
use differential::inputs;
use differential::run::{run_group, Run};
use differential::sets::{in_any_edition, least_q, sets_with, DEGREES, MOST_Q, RANGES};
use differential::spoil::{spoiled_number, ways, Way};
use differential::sums::{powers_of_t, summands, totals, turned_back};
use reference::prng::Prng;
use reference::set::set;
use reference::Set;

/// The largest q for which the library sums up to 80 products in one part.
const UNCUT: u32 = 480_191_941;

/// The n: the library halves a product once more where n passes 80 * 2^k.
fn rings() -> impl Iterator<Item = u32> {
    let halved = (0..6).flat_map(|k| [80 << k, (80 << k) + 1]);
    let others = [64, 79, 82, 159, 510, 1201, 4095, 4096];
    (2..=17).chain(halved).chain(others)
}

/// What was tried with a q and an n.
#[derive(Clone, Copy, Debug, PartialEq, Eq, PartialOrd, Ord)]
enum Tried {
    /// Elements whose coefficients are drawn one by one.
    Random,
    /// Elements of any kind.
    Any { l: u32, dx: u32, dr: u32 },
    /// A product that is 1 at every place, with q - 1.
    Ones,
    /// All coefficients q - 1, the factors in so many buffers.
    Tops { buffers: usize },
    /// A coefficient of the product and one of c with this sum.
    Sum { total: u64, place: usize },
    /// A coefficient at place i alone times one at place j alone.
    Single { i: usize, j: usize },
    /// A word of a, b or c that is q or more.
    Word {
        which: usize,
        place: usize,
        number: u32,
    },
    /// A wrong length of a, b or c.
    Length { which: usize, length: usize },
}

/// q, n and what was tried with them.
type All = BTreeSet<(u32, u32, Tried)>;

/// One set.
struct Trial<'a> {
    run: &'a mut Run,
    tried: &'a mut All,
    set: Set,
}

impl Trial<'_> {
    fn note(&mut self, what: Tried) {
        self.tried.insert((self.set.q, self.set.n, what));
    }

    fn call(&mut self, a: &[u32], b: &[u32], c: &[u32]) -> (u32, Vec<u32>) {
        multiply_add(self.run, self.set, a, b, c)
    }

    fn expect(&self, fact: bool, words: &str) {
        self.run.expect(fact, self.set, words);
    }

    /// A ring element of any kind.
    fn any(&mut self) -> Vec<u32> {
        inputs::below(self.set.q, self.set.places(), &mut self.run.prng)
    }

    /// a * b + c, and with a and b exchanged.
    fn gives(&mut self, [a, b, c]: [&[u32]; 3], wanted: &[u32], words: &str) {
        for [a, b] in [[a, b], [b, a]] {
            let (number, got) = self.call(a, b, c);
            self.expect(number == 0 && got == wanted, words);
        }
    }

    /// Elements whose coefficients are drawn one by one.
    fn random(&mut self) {
        let (q, n, prng) = (u64::from(self.set.q), self.set.n, &mut self.run.prng);
        let mut draw = || (0..n).map(|_| prng.below(q) as u32).collect();
        let [a, b, c]: [Vec<u32>; 3] = [draw(), draw(), draw()];
        let (_, sum) = self.call(&a, &b, &c);
        self.gives([&a, &b, &c], &sum, "the same again, and exchanged");
        self.note(Tried::Random);
    }

    /// An element of ones times one whose coefficients have the sum 1 modulo q: 1, t^k and any.
    fn ones(&mut self) {
        let (set, n) = (self.set, self.set.places());
        let mut any = self.any();
        let others: u64 = any[1..].iter().copied().map(u64::from).sum();
        let q = u64::from(set.q);
        any[0] = ((q + 1 - others % q) % q) as u32;
        let k = self.power();
        for b in [powers_of_t(set, &[0]), powers_of_t(set, &[k]), any] {
            let given: [&[u32]; 3] = [&vec![1; n], &b, &vec![set.q - 1; n]];
            self.gives(given, &vec![0; n], "q - 1 and 1 are 0");
        }
        self.note(Tried::Ones);
    }

    /// A power of t that isn't 1.
    fn power(&mut self) -> usize {
        1 + self.run.prng.below(u64::from(self.set.n) - 1) as usize
    }

    /// Each coefficient q - 1: n * (q - 1)^2 + c at every place.
    fn tops(&mut self) {
        let (set, n) = (self.set, self.set.places());
        let tops = vec![set.q - 1; n];
        for c in [0, set.q - 1] {
            let square = u128::from(set.q - 1).pow(2);
            let coefficient = (u128::from(set.n) * square + u128::from(c)) % u128::from(set.q);
            let wanted = (0, vec![coefficient as u32; n]);
            let c = vec![c; n];
            let two = self.call(&tops, &tops, &c);
            let one = square_add(self.run, set, &tops, &c);
            self.expect(two == wanted && one == wanted, "n * (q - 1)^2 + c");
        }
        self.note(Tried::Tops { buffers: 2 });
        self.note(Tried::Tops { buffers: 1 });
    }

    /// A product with a power of t, and c, which have one sum at every place: q - 1, q, q + 1 or 2q - 2.
    fn sums(&mut self) {
        let (set, n) = (self.set, self.set.places());
        for total in totals(set.q) {
            let k = self.power();
            let [product, c] = summands(set.q, total, n, &mut self.run.prng);
            let factors = [turned_back(&product, k), powers_of_t(set, &[k])];
            let wanted = vec![(total % u64::from(set.q)) as u32; n];
            let given: [&[u32]; 3] = [&factors[0], &factors[1], &c];
            self.gives(given, &wanted, "the product and c modulo q");
            for place in 0..n {
                let sum = u64::from(product[place]) + u64::from(c[place]);
                self.note(Tried::Sum { total: sum, place });
            }
        }
    }
}

/// Pairs of places: all where there are few; otherwise those whose sum is n - 1 and n, with each place up to
/// n 161 and some above.
fn pairs(n: usize) -> Vec<[usize; 2]> {
    let firsts: Vec<usize> = match n {
        ..=17 => {
            let all = (0..n).flat_map(|i| (0..n).map(move |j| [i, j]));
            return all.collect();
        }
        18..=161 => (0..n).collect(),
        _ => vec![0, 1, 79, 80, n / 4, n / 2 - 1, n / 2, n - 2, n - 1],
    };
    let seconds = |i| [[i, n - 1 - i], [i, (n - i) % n]];
    firsts.into_iter().flat_map(seconds).collect()
}

impl Trial<'_> {
    /// A coefficient that isn't zero: 1, q - 1 or any.
    fn coefficient(&mut self) -> u32 {
        let top = self.set.q - 1;
        match self.run.prng.below(4) {
            0 => 1,
            1 => top,
            _ => 1 + self.run.prng.below(u64::from(top)) as u32,
        }
    }

    /// x t^i times y t^j.
    fn singles(&mut self) {
        let (set, n) = (self.set, self.set.places());
        for [i, j] in pairs(n) {
            let [x, y] = [self.coefficient(), self.coefficient()];
            let [mut a, mut b] = [vec![0; n], vec![0; n]];
            (a[i], b[j]) = (x, y);
            let c = self.any();
            let place = if i + j < n { i + j } else { i + j - n };
            let sum = u64::from(x) * u64::from(y) + u64::from(c[place]);
            let mut wanted = c.clone();
            wanted[place] = (sum % u64::from(set.q)) as u32;
            let right = self.call(&a, &b, &c) == (0, wanted);
            self.expect(right, "t^i * t^j is t^(i + j)");
            self.note(Tried::Single { i, j });
        }
    }

    /// The refusal of three elements of which one is wrong: in two buffers, and in one where it isn't b.
    fn refuses(&mut self, wanted: u32, which: usize, [a, b, c]: &[Vec<u32>; 3]) {
        let (number, _) = self.call(a, b, c);
        self.expect(number == wanted, "one is wrong, in two buffers");
        if which != 1 {
            let (number, _) = square_add(self.run, self.set, a, c);
            self.expect(number == wanted, "one is wrong, in one buffer");
        }
    }

    /// q, q + 1 and 2^32 - 1 at the first, middle and last place of each of the three.
    fn wrong_words(&mut self) {
        let (set, n) = (self.set, self.set.places());
        for which in 0..3 {
            for place in [0, n / 2, n - 1] {
                for number in [set.q, set.q + 1, u32::MAX] {
                    let mut given = [(); 3].map(|()| self.any());
                    given[which][place] = number;
                    self.refuses(8, which, &given);
                    self.note(Tried::Word {
                        which,
                        place,
                        number,
                    });
                }
            }
        }
    }

    /// Each of the three empty, one short and one long.
    fn wrong_lengths(&mut self) {
        let n = self.set.places();
        for which in 0..3 {
            for length in [0, n - 1, n + 1] {
                let mut given = [(); 3].map(|()| self.any());
                given[which].resize(length, 0);
                self.refuses(6, which, &given);
                self.note(Tried::Length { which, length });
            }
        }
    }
}

fn plus(q: u32, a: &[u32], b: &[u32]) -> Vec<u32> {
    let add = |(&x, &y)| ((u64::from(x) + u64::from(y)) % u64::from(q)) as u32;
    a.iter().zip(b).map(add).collect()
}

impl Trial<'_> {
    /// Elements of any kind: exchanged, with c 0 and with c the product's negative; in one buffer or two;
    /// with a factor of 0 and a small one.
    fn elements(&mut self) {
        let (set, q) = (self.set, self.set.q);
        let [a, b, c] = [(); 3].map(|()| self.any());
        let zeros = vec![0; set.places()];
        let (number, sum) = self.call(&a, &b, &c);
        self.expect(number == 0, "elements are accepted");
        let same = self.call(&b, &a, &c) == (0, sum.clone());
        self.expect(same, "a * b is b * a");
        let (_, product) = self.call(&a, &b, &zeros);
        self.expect(sum == plus(q, &product, &c), "c is added");
        let negative: Vec<u32> = product.iter().map(|x| (q - x) % q).collect();
        let none = self.call(&a, &b, &negative) == (0, zeros.clone());
        self.expect(none, "a product and its negative are 0");
        let same = square_add(self.run, set, &a, &c) == self.call(&a, &a, &c);
        self.expect(same, "one buffer or two");
        let kept = (0, c.clone());
        let right = self.call(&a, &zeros, &c) == kept && self.call(&zeros, &b, &c) == kept;
        self.expect(right, "a product with 0 is 0");
        let small = inputs::below(set.l, set.places(), &mut self.run.prng);
        let same = self.call(&small, &b, &c) == self.call(&b, &small, &c);
        self.expect(same, "a small element is a ring element");
        let Set { l, dx, dr, .. } = set;
        self.note(Tried::Any { l, dx, dr });
    }
}

/// The element with a wrong word or of a wrong length, where the way has these kinds.
fn spoiled(run: &mut Run, set: Set, way: Way, [length, word]: [u32; 2]) -> Vec<u32> {
    let mut element = inputs::below(set.q, set.places(), &mut run.prng);
    let prng = &mut run.prng;
    if way.has(word) {
        let place = prng.below(element.len() as u64) as usize;
        element[place] = spoiled_number(set.q, 32, prng);
    }
    element.resize(way.length(length, element.len(), prng), 0);
    element
}

/// Each refusal, and several at once. Kinds 0 to 2 are the lengths, 3 to 5 the words.
fn refusals(run: &mut Run, set: Set, more: usize) {
    for way in ways(6, more, &mut run.prng) {
        let [a, b, c] = [[0, 3], [1, 4], [2, 5]].map(|kinds| spoiled(run, set, way, kinds));
        let wrong = way.set(set, &mut run.prng);
        let (two, _) = multiply_add(run, wrong, &a, &b, &c);
        let (one, _) = square_add(run, wrong, &a, &c);
        // In one buffer b isn't looked at.
        let right =
            two == way.refusal(&[6, 6, 6, 8, 8, 8]) && one == way.refusal(&[6, 0, 6, 8, 0, 8]);
        run.expect(right, wrong, "the first refusal that applies");
    }
}

/// Worked case 1: (1 + 2t)(5 + 7t) is 19 + 17t.
fn worked(run: &mut Run) {
    let set = set(4, 1459, 2, 1, 1, 4);
    let got = multiply_add(run, set, &[1, 2], &[5, 7], &[0, 0]);
    run.expect(got == (0, vec![19, 17]), set, "case 1");
}

/// No q is accepted: refusal 4, whatever the elements are.
fn too_large(run: &mut Run, l: u32, n: u32, (dx, dr): (u32, u32)) {
    let set = in_any_edition(set(l, MOST_Q, n, dx, dr, 0), &mut run.prng);
    let words = vec![u32::MAX; set.places()];
    let (number, _) = multiply_add(run, set, &words, &words, &words);
    run.expect(number == 4, set, "no q is accepted");
}

/// The q of the fixed sets: where n is large, fewer.
fn moduli(n: u32) -> Vec<u32> {
    match least_q(2, n, 2) {
        Some(least) if n <= 1000 => vec![least, UNCUT, UNCUT + 1, MOST_Q],
        _ => vec![UNCUT, MOST_Q],
    }
}

/// l 2 and degrees 1, which leave q the most room.
fn fixed_sets(run: &mut Run, tried: &mut All, n: u32) {
    for q in moduli(n) {
        if run.skips() {
            continue;
        }
        let set = in_any_edition(set(2, q, n, 1, 1, n), &mut run.prng);
        let (run, tried) = (&mut *run, &mut *tried);
        let mut trial = Trial { run, tried, set };
        trial.random();
        trial.ones();
        trial.tops();
        trial.sums();
        if n <= 161 || q == MOST_Q {
            trial.singles();
        }
        trial.wrong_words();
        trial.wrong_lengths();
    }
}

/// All sets with these where n is small, and one of them where it is large.
fn some_sets(l: u32, n: u32, degrees: (u32, u32), prng: &mut Prng) -> Vec<Set> {
    let mut sets = sets_with(l, n, degrees, prng);
    if n > 1000 && !sets.is_empty() {
        let one = prng.below(sets.len() as u64) as usize;
        sets = vec![sets[one]];
    }
    sets
}

/// What has to be tried with a q and an n.
fn claims(q: u32, n: usize) -> Vec<Tried> {
    let mut list = vec![Tried::Random, Tried::Ones];
    list.extend([1, 2].map(|buffers| Tried::Tops { buffers }));
    let top = u64::from(q) - 1;
    for total in [top, top + 1, top + 2, 2 * top] {
        list.extend((0..n).map(|place| Tried::Sum { total, place }));
    }
    for i in 0..n {
        if n <= 161 || q == MOST_Q && [0, n / 2, n - 1].contains(&i) {
            // The sum of the places is n - 1 or n.
            let near = n - 1 - i..n.min(n - i + 1);
            let seconds = if n <= 17 { 0..n } else { near };
            list.extend(seconds.map(|j| Tried::Single { i, j }));
        }
    }
    for which in 0..3 {
        list.extend([0, n - 1, n + 1].map(|length| Tried::Length { which, length }));
        for place in [0, n / 2, n - 1] {
            let word = |number| Tried::Word {
                which,
                place,
                number,
            };
            list.extend([q, q + 1, u32::MAX].map(word));
        }
    }
    list
}

/// Every n with every q that is claimed for it, and with every l and degree that it is accepted with. Not by
/// `rings` and `moduli`, so that what is left out there is missed here.
fn complete(run: &Run, tried: &All) {
    let by_n: BTreeSet<(u32, Tried)> = tried.iter().map(|&(_, n, what)| (n, what)).collect();
    let long = [
        64, 79, 80, 81, 82, 159, 160, 161, 320, 321, 510, 640, 641, 1201, 1280, 1281, 2560, 2561,
        4095, 4096,
    ];
    for n in (2..=17).chain(long) {
        // The first is the least q that is accepted with this n.
        let short = [6 * n * n + 4 * n + 4, 480_191_942];
        let short = short.into_iter().filter(|_| n <= 1000);
        for q in short.chain([480_191_941, 2_147_483_647]) {
            for what in claims(q, n as usize) {
                let words = format!("{what:?} was tried");
                let seen = tried.contains(&(q, n, what));
                run.expect(seen, set(2, q, n, 1, 1, n), &words);
            }
        }
        for (l, (dx, dr)) in RANGES.into_iter().flat_map(|l| DEGREES.map(|d| (l, d))) {
            let seen = by_n.contains(&(n, Tried::Any { l, dx, dr }));
            let refused = least_q(l, n, dx + dr).is_none();
            let right = seen != refused;
            run.expect(right, set(l, 0, n, dx, dr, 0), "any elements were tried");
        }
    }
}

/// Accepted and refused with every l and every qlen.
fn every_shape(run: &Run) {
    for number in [0, 6, 8] {
        for l in RANGES {
            let seen = run.gave("multiply_add", number, |shape| shape.l == l);
            assert!(seen, "multiply_add never answered {number} with l {l}");
        }
        for qlen in 1..=4 {
            let seen = run.gave("multiply_add", number, |shape| shape.qlen == qlen);
            assert!(
                seen,
                "multiply_add never answered {number} with qlen {qlen}"
            );
        }
    }
}

/// Every l and degree.
fn other_sets(run: &mut Run, tried: &mut All, n: u32) {
    for (l, degrees) in RANGES.into_iter().flat_map(|l| DEGREES.map(|d| (l, d))) {
        let sets = some_sets(l, n, degrees, &mut run.prng);
        if sets.is_empty() {
            too_large(run, l, n, degrees);
        }
        for set in sets {
            if run.skips() {
                continue;
            }
            let (run, tried) = (&mut *run, &mut *tried);
            Trial { run, tried, set }.elements();
            refusals(run, set, if n < 100 { 20 } else { 0 });
        }
    }
}

fn round(run: &mut Run) {
    let mut tried = All::new();
    worked(run);
    for n in rings() {
        fixed_sets(run, &mut tried, n);
        other_sets(run, &mut tried, n);
    }
    if !run.is_short() {
        complete(run, &tried);
        every_shape(run);
    }
}

fn main() {
    let numbers: [(&str, &[u32]); 1] = [("multiply_add", &[0, 1, 2, 3, 4, 5, 18, 6, 8])];
    run_group("products", &numbers, round);
}
