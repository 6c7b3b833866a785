//! Two coefficients whose sum is q - 1, q, q + 1 or 2q - 2, in add, decrypt, is_zero and encrypt. What
//! comes out is known without the reference implementation.

use std::collections::BTreeMap;

use differential::compare::{
    add, decrypt, double, encrypt, is_zero, DecryptLengths, EncryptLengths,
};
use differential::inputs;
use differential::run::{run_group, Run};
use differential::sets::{in_any_edition, sets_of};
use differential::sums::{
    all_but_one, meeting, mixed_summands, packed, polynomial, powers_of_t, rest, summand, summands,
    totals, turned, turned_back, Elements, Parts, MODULI,
};
use reference::monomials::{count, monomials, position};
use reference::octets::{numbers_to_octets, pack};
use reference::set::set;
use reference::Set;

/// The sums that were made: for the call and what meets in it, q, n and the sum, the places that had it.
type Made = BTreeMap<(&'static str, u32, u32, u64), Vec<bool>>;

/// A polynomial, a secret key and the polynomial's value at it.
#[derive(Clone)]
struct Meeting {
    polynomial: Vec<u8>,
    secret_key: Vec<u8>,
    value: Vec<u32>,
}

/// One set and one sum.
struct Trial<'a> {
    run: &'a mut Run,
    made: &'a mut Made,
    set: Set,
    total: u64,
}

impl Trial<'_> {
    /// a + b modulo q at each place; makes a note of the places that have the sum.
    fn sums(&mut self, way: &'static str, a: &[u32], b: &[u32]) -> Vec<u32> {
        let Set { q, n, .. } = self.set;
        let made = self.made.entry((way, q, n, self.total));
        let made = made.or_insert_with(|| vec![false; n as usize]);
        let mut found = Vec::new();
        for (place, (&x, &y)) in a.iter().zip(b).enumerate() {
            let sum = u64::from(x) + u64::from(y);
            made[place % n as usize] |= sum == self.total;
            found.push((sum % u64::from(q)) as u32);
        }
        found
    }

    fn negative(&self, element: &[u32]) -> Vec<u32> {
        let q = self.set.q;
        element.iter().map(|x| (q - x) % q).collect()
    }

    fn summands(&mut self, places: usize) -> [Vec<u32>; 2] {
        summands(self.set.q, self.total, places, &mut self.run.prng)
    }

    /// A power of t that isn't 1.
    fn power(&mut self) -> usize {
        1 + self.run.prng.below(u64::from(self.set.n) - 1) as usize
    }

    /// An element whose neighbouring places give the sum, but for one pair of them where n is odd.
    fn chain(&mut self, turn: usize) -> Vec<u32> {
        let one = summand(self.set.q, self.total, turn, &mut self.run.prng);
        let pair = [vec![one], rest(self.total, &[one])].concat();
        let chain: Vec<u32> = (0..self.set.places()).map(|k| pair[k % 2]).collect();
        turned(&chain, self.power())
    }

    /// The chain times 1 + t.
    fn neighbours(&mut self, way: &'static str, chain: &[u32]) -> Vec<u32> {
        self.sums(way, chain, &turned(chain, 1))
    }
}

impl Trial<'_> {
    /// Every place of a ciphertext: in two buffers, exchanged, and in one buffer.
    fn additions(&mut self) {
        let (set, places) = (self.set, self.set.ciphertext_words());
        let [a, b] = self.summands(places);
        let wanted = self.sums("add", &a, &b);
        adds_to(self.run, set, [&a, &b], &wanted);
        adds_to(self.run, set, [&b, &a], &wanted);
        if self.total.is_multiple_of(2) {
            let half = vec![(self.total / 2) as u32; places];
            let wanted = self.sums("add, one buffer", &half, &half);
            let [half, wanted] = [half, wanted].map(|words| octets(set, &words));
            let (number, sum) = double(self.run, set, &half, wanted.len());
            let right = number == 0 && sum == wanted;
            self.run.expect(right, set, "a + a modulo q");
        }
    }
}

/// Values at a secret key.
impl Trial<'_> {
    /// These elements meet place by place. Both elements of the secret key are t^(n - 1), the only power of t that may
    /// stand there alone.
    fn met(&self, degree: u32, elements: Elements, value: Vec<u32>) -> Meeting {
        let powers = [self.set.places() - 1; 2];
        let [secret_key, polynomial] = meeting(self.set, degree, elements, powers);
        Meeting {
            polynomial,
            secret_key,
            value,
        }
    }

    /// The same with any element of a secret key for a variable that neither monomial has, where there is one.
    fn with_any(&mut self, mut one: Meeting, pairs: [(u32, u32); 2]) -> Option<Meeting> {
        let [(i, j), (k, m)] = pairs;
        let variable = [i + k, j + m].into_iter().position(|power| power == 0)?;
        let any = inputs::secret_element(self.set, &mut self.run.prng);
        one.secret_key[variable * any.len()..][..any.len()].copy_from_slice(&any);
        Some(one)
    }

    /// Any two elements meet at every place.
    fn two_elements(&mut self, way: &'static str, degree: u32) -> Vec<Meeting> {
        let mut found = Vec::new();
        let list = monomials(degree);
        for second in 0..list.len() {
            for first in 0..second {
                let [a, b] = self.summands(self.set.places());
                let value = self.sums(way, &a, &b);
                let one = self.met(degree, vec![(first, a), (second, b)], value);
                found.extend(self.with_any(one.clone(), [list[first], list[second]]));
                found.push(one);
            }
        }
        found
    }

    /// Neighbouring places of one element meet inside its product with t^(n - 2) + t^(n - 1), or t^(n - 1) + 1.
    fn one_element(&mut self, way: &'static str, degree: u32) -> Vec<Meeting> {
        let mut found = Vec::new();
        let top = self.set.places() - 1;
        for (at, (i, j)) in monomials(degree).into_iter().enumerate() {
            for turn in 0..5 {
                let k = top - self.run.prng.below(2) as usize;
                let neighbours = powers_of_t(self.set, &[k, k + 1]);
                let single = powers_of_t(self.set, &[top]);
                let (small, more) = match (i, j) {
                    (1, j) => ([neighbours, single], j as usize * top),
                    (i, 1) => ([single, neighbours], i as usize * top),
                    _ => continue,
                };
                let chain = self.chain(turn);
                let value = self.neighbours(way, &chain);
                found.push(Meeting {
                    polynomial: polynomial(self.set, degree, &vec![(at, chain)]),
                    secret_key: packed(self.set, &small),
                    value: turned(&value, k + more),
                });
            }
        }
        found
    }

    fn decryptions(&mut self) {
        let (set, degree) = (self.set, self.set.d());
        let mut list = self.two_elements("decrypt, two elements", degree);
        list.extend(self.one_element("decrypt, one product", degree));
        for one in list {
            let small: Vec<u32> = one.value.iter().map(|w| w % set.l).collect();
            let wanted = pack(set.b(), &small, set.message_octets());
            let lengths = DecryptLengths::of(set);
            let (secret_key, ciphertext) = (&one.secret_key, &one.polynomial);
            let (number, message) = decrypt(self.run, set, secret_key, ciphertext, lengths);
            let right = number == 0 && message == wanted;
            self.run.expect(right, set, "w modulo l");
        }
    }

    /// Two elements meet, and a third one brings each place to 0.
    fn three_elements(&mut self, way: &'static str) -> Vec<Meeting> {
        let (degree, all) = (self.set.dx, count(self.set.dx));
        let mut found = Vec::new();
        for second in 0..all {
            for first in 0..second {
                let mut others = (0..all).filter(|&at| at != first && at != second);
                let which = self.run.prng.below(all as u64 - 2) as usize;
                let third = others.nth(which).expect("three or more");
                let [a, b] = self.summands(self.set.places());
                let value = self.sums(way, &a, &b);
                let negative = self.negative(&value);
                let zeros = vec![0; negative.len()];
                let elements = vec![(first, a), (second, b), (third, negative)];
                found.push(self.met(degree, elements, zeros));
            }
        }
        found
    }

    /// The same, which had no constant, with one that brings each place to 0.
    fn brought_to_zero(&self, one: &Meeting) -> Meeting {
        let start = self.set.public_key_octets() - self.set.element_octets();
        let constant = octets(self.set, &self.negative(&one.value));
        Meeting {
            polynomial: [&one.polynomial[..start], &constant].concat(),
            secret_key: one.secret_key.clone(),
            value: vec![0; self.set.places()],
        }
    }

    /// All places but one have a sum of q.
    fn one_place(&mut self, way: &'static str) -> Vec<Meeting> {
        let (set, degree, q) = (self.set, self.set.dx, u64::from(self.set.q));
        let mut found = Vec::new();
        let places = if self.total == q { 0 } else { set.places() };
        for place in 0..places {
            let [a, b] = all_but_one(set, self.total, place, &mut self.run.prng);
            let value = self.sums(way, &a, &b);
            let [first, second] = [place, place + 1].map(|at| at % count(degree));
            let elements = vec![(first, a), (second, b)];
            found.push(self.met(degree, elements, value));
        }
        found
    }

    fn zero_tests(&mut self) {
        let (set, degree) = (self.set, self.set.dx);
        let mut list = self.two_elements("is_zero, two elements", degree);
        for one in self.one_element("is_zero, one product", degree) {
            list.extend([self.brought_to_zero(&one), one]);
        }
        list.extend(self.three_elements("is_zero, three elements"));
        list.extend(self.one_place("is_zero, one place"));
        for one in list {
            let wanted = u32::from(one.value.iter().all(|&x| x == 0));
            let (secret_key, public_key) = (&one.secret_key, &one.polynomial);
            let (number, zero) = is_zero(self.run, set, secret_key, public_key, set.work_words());
            let right = (number, zero) == (0, wanted);
            self.run.expect(right, set, "zero if every place is 0");
        }
    }
}

/// Where the factors of each product stand in X and in r, and the product in c.
fn products(set: Set) -> Vec<[usize; 3]> {
    let mut list = Vec::new();
    for (in_key, (i, j)) in monomials(set.dx).into_iter().enumerate() {
        for (in_r, (k, m)) in monomials(set.dr).into_iter().enumerate() {
            list.push([in_key, in_r, position(set.d(), i + k, j + m)]);
        }
    }
    list
}

/// The two, exchanged where that is asked.
fn exchanged<T>(exchange: bool, [first, second]: [T; 2]) -> [T; 2] {
    match exchange {
        true => [second, first],
        false => [first, second],
    }
}

/// One element of X and one of r.
fn one_factor_each(at: [usize; 2], [key, r]: [Vec<u32>; 2]) -> Parts {
    Parts {
        key: vec![(at[0], key)],
        r: vec![(at[1], r)],
        ..Parts::default()
    }
}

/// The parts of a ciphertext's coefficient.
impl Trial<'_> {
    fn encrypts_to(&mut self, given: &Parts, wanted: &Elements) {
        let set = self.set;
        let [public_key, message, random] = given.octets(set);
        let lengths = EncryptLengths::of(set);
        let made = encrypt(self.run, set, &public_key, &message, &random, lengths);
        let right = made.number == 0
            && made.used == random.len() as u64
            && made.ciphertext == polynomial(set, set.d(), wanted);
        self.run.expect(right, set, "m + X * r + l * e modulo q");
    }

    /// Small coefficients, the same times the factor, and what those lack to the sum; `None` where that is
    /// never below q.
    fn small_summands(&mut self, factor: u32) -> Option<[Vec<u32>; 3]> {
        let Set { l, q, .. } = self.set;
        let reaches = |x: &u32| self.total < u64::from(q) + u64::from(factor * x);
        let list: Vec<u32> = (0..l).filter(reaches).collect();
        if list.is_empty() {
            return None;
        }
        let any = |_| list[self.run.prng.below(list.len() as u64) as usize];
        let small: Vec<u32> = (0..self.set.places()).map(any).collect();
        let times: Vec<u32> = small.iter().map(|x| factor * x).collect();
        let product = rest(self.total, &times);
        Some([small, times, product])
    }

    /// X and r with this product alone: one of them is a power of t.
    fn one_product(&mut self, at: [usize; 2], product: &[u32], exchange: bool) -> Parts {
        let power = self.power();
        let factors = [turned_back(product, power), powers_of_t(self.set, &[power])];
        one_factor_each(at, exchanged(exchange, factors))
    }

    /// A product and l * e, at each monomial.
    fn noise(&mut self) {
        for [in_key, in_r, at] in products(self.set) {
            for exchange in [false, true] {
                let Some([small, times, product]) = self.small_summands(self.set.l) else {
                    return;
                };
                let wanted = self.sums("encrypt, noise", &product, &times);
                let mut given = self.one_product([in_key, in_r], &product, exchange);
                given.e = vec![(at, small)];
                self.encrypts_to(&given, &vec![(at, wanted)]);
            }
        }
    }

    /// A product and m, at the constant.
    fn messages(&mut self) {
        let last = |degree| count(degree) - 1;
        let [in_key, in_r, at] = [self.set.dx, self.set.dr, self.set.d()].map(last);
        for exchange in [false, true].repeat(4) {
            let Some([small, times, product]) = self.small_summands(1) else {
                return;
            };
            let wanted = self.sums("encrypt, message", &product, &times);
            let mut given = self.one_product([in_key, in_r], &product, exchange);
            given.message = small;
            self.encrypts_to(&given, &vec![(at, wanted)]);
        }
    }

    /// Neighbouring places of one element meet inside its product with t^k + t^(k + 1).
    fn chains(&mut self) {
        for (turn, [in_key, in_r, at]) in products(self.set).into_iter().enumerate() {
            for exchange in [false, true] {
                let (k, chain) = (self.power(), self.chain(turn));
                let wanted = self.neighbours("encrypt, one product", &chain);
                let factors = [chain, powers_of_t(self.set, &[k, k + 1])];
                let given = one_factor_each([in_key, in_r], exchanged(exchange, factors));
                self.encrypts_to(&given, &vec![(at, turned(&wanted, k))]);
            }
        }
    }

    /// Two products of one monomial; a factor of each is a power of t. The factors make two further
    /// products, alone at their monomials.
    fn two_products(&mut self, [first, second]: [[usize; 3]; 2], exchange: bool) {
        let set = self.set;
        let at = |in_key: usize, in_r: usize| products(set)[in_key * count(set.dr) + in_r][2];
        let further = [at(first[0], second[1]), at(second[0], first[1])];
        let [further_a, further_b] = exchanged(exchange, further);
        let [a, b] = self.summands(set.places());
        let sum = self.sums("encrypt, two products", &a, &b);
        let (i, j) = (self.power(), self.power());
        let (a, b) = (turned_back(&a, i), turned_back(&b, j));
        let wanted = vec![
            (first[2], sum),
            (further_a, turned(&a, j)),
            (further_b, turned(&b, i)),
        ];
        let [key_a, r_a] = exchanged(exchange, [a, powers_of_t(set, &[i])]);
        let [key_b, r_b] = exchanged(exchange, [b, powers_of_t(set, &[j])]);
        let given = Parts {
            key: vec![(first[0], key_a), (second[0], key_b)],
            r: vec![(first[1], r_a), (second[1], r_b)],
            ..Parts::default()
        };
        self.encrypts_to(&given, &wanted);
    }

    fn encryptions(&mut self) {
        self.noise();
        self.messages();
        self.chains();
        let list = products(self.set);
        for (at, &second) in list.iter().enumerate() {
            for &first in list[..at].iter().filter(|first| first[2] == second[2]) {
                for exchange in [false, true] {
                    self.two_products([first, second], exchange);
                }
            }
        }
    }
}

fn octets(set: Set, words: &[u32]) -> Vec<u8> {
    numbers_to_octets(set.qlen(), words)
}

fn adds_to(run: &mut Run, set: Set, [a, b]: [&[u32]; 2], wanted: &[u32]) {
    let [a, b, wanted] = [a, b, wanted].map(|words| octets(set, words));
    let (number, sum) = add(run, set, &a, &b, wanted.len());
    run.expect(number == 0 && sum == wanted, set, "a + b modulo q");
}

/// The four sums side by side in one ciphertext.
fn mixed_additions(run: &mut Run, set: Set) {
    let (list, places) = (totals(set.q), set.ciphertext_words());
    let [a, b] = mixed_summands(set.q, &list, places, &mut run.prng);
    let reduced = list.map(|total| (total % u64::from(set.q)) as u32);
    let wanted: Vec<u32> = reduced.into_iter().cycle().take(places).collect();
    adds_to(run, set, [&a, &b], &wanted);
}

/// Every pair of coefficients at q = 36.
fn every_pair(run: &mut Run) {
    let set = set(2, 36, 2, 1, 1, 2);
    for a in 0..36 {
        for first in (0..36).step_by(set.ciphertext_words()) {
            let b: Vec<u32> = (first..36).take(set.ciphertext_words()).collect();
            let wanted: Vec<u32> = b.iter().map(|b| (a + b) % 36).collect();
            adds_to(run, set, [&vec![a; b.len()], &b], &wanted);
        }
    }
}

/// Whether the sum can be made so.
fn can_be(way: &str, q: u32, n: usize, total: u64) -> bool {
    let largest = total == 2 * u64::from(q) - 2;
    match way {
        "add, one buffer" => total.is_multiple_of(2),
        "is_zero, one place" => total != u64::from(q),
        "encrypt, noise" => !largest,
        // q + 1 needs a message coefficient of 2, so l has to be 4 or more.
        "encrypt, message" if total == u64::from(q) + 1 => q > 1_000_000 || q > 36 && n < 81,
        "encrypt, message" => !largest,
        _ => true,
    }
}

/// The calls, and what meets in each.
const WAYS: [&str; 12] = [
    "add",
    "add, one buffer",
    "decrypt, two elements",
    "decrypt, one product",
    "is_zero, two elements",
    "is_zero, one product",
    "is_zero, three elements",
    "is_zero, one place",
    "encrypt, noise",
    "encrypt, message",
    "encrypt, one product",
    "encrypt, two products",
];

/// Every sum was made in every way, with every q and n and at every place, where that can be.
fn complete(run: &Run, made: &Made) {
    let mut wanted = BTreeMap::new();
    // Not by MODULI, so that a q that is left out there is missed here.
    for q in [36, 65_535, 65_536, 16_777_216, 2_147_483_647u32] {
        let rings: &[usize] = if q == 36 { &[2] } else { &[2, 8, 81] };
        for &n in rings {
            for total in totals(q) {
                let ways = WAYS.into_iter().filter(|way| can_be(way, q, n, total));
                wanted.extend(ways.map(|way| ((way, q, n as u32, total), vec![true; n])));
            }
        }
    }
    for one in wanted.keys().chain(made.keys()) {
        let (way, q, n, total) = *one;
        let words = format!("{way}: a sum of {total} was made at every place, where it can be");
        let same = wanted.get(one) == made.get(one);
        run.expect(same, set(2, q, n, 1, 1, n), &words);
    }
}

fn round(run: &mut Run) {
    let mut made = Made::new();
    for set in MODULI.into_iter().flat_map(sets_of) {
        if run.skips() {
            continue;
        }
        let set = in_any_edition(set, &mut run.prng);
        mixed_additions(run, set);
        for total in totals(set.q) {
            let (run, made) = (&mut *run, &mut made);
            let mut trial = Trial {
                run,
                made,
                set,
                total,
            };
            trial.additions();
            trial.decryptions();
            trial.zero_tests();
            trial.encryptions();
        }
    }
    every_pair(run);
    if !run.is_short() {
        complete(run, &made);
    }
}

fn main() {
    let numbers: [(&str, &[u32]); 4] = [
        ("add", &[0]),
        ("decrypt", &[0]),
        ("is_zero", &[0]),
        ("encrypt", &[0]),
    ];
    run_group("sums", &numbers, round);
}
