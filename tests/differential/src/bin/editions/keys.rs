//! keygen in both editions on the same octets: the same keys; what differs is known without the reference
//! implementation.

use differential::compare::{keygen, KeygenLengths, Keys};
use differential::inputs::{self, with_top};
use differential::run::Run;
use differential::sets::EDITIONS;
use reference::monomials::count;
use reference::Set;

use crate::tried::{All, Enough, Thrown, Tried};

/// More groups than 16 bits can count.
const MANY: usize = 65_537;

/// keygen with one set.
pub struct Trial<'a> {
    run: &'a mut Run,
    all: &'a mut All,
    set: Set,
    /// u_x and u_y as they are drawn.
    secret: [Vec<u8>; 2],
    /// What is drawn below q for the public key, and what edition 2 draws and throws away.
    drawn: [Vec<u32>; 2],
    /// The public key that all this gives.
    public_key: Vec<u8>,
}

/// Random octets, with what is dropped from them.
struct Octets {
    /// What edition 1 uses.
    first: Vec<u8>,
    /// What edition 2 uses behind them.
    thrown: Vec<u8>,
    /// The groups that are dropped from each.
    groups: [usize; 2],
    elements: usize,
}

impl Octets {
    fn all(&self) -> Vec<u8> {
        [&self.first[..], &self.thrown].concat()
    }

    /// The octets used, the dropped groups and the dropped elements in each edition.
    fn told(&self) -> [[u64; 3]; 2] {
        let [key, thrown] = self.groups;
        let (first, all) = (self.first.len(), self.all().len());
        [
            [first, key, self.elements],
            [all, key + thrown, self.elements],
        ]
        .map(|told| told.map(|count| count as u64))
    }
}

impl<'a> Trial<'a> {
    pub fn new(run: &'a mut Run, all: &'a mut All, set: Set) -> Self {
        let (n, prng) = (set.places(), &mut run.prng);
        let drawn = [(count(set.dx) - 1) * n, n];
        let mut trial = Trial {
            secret: [(); 2].map(|()| inputs::secret_element(set, prng)),
            drawn: drawn.map(|length| inputs::below(set.q, length, prng)),
            public_key: Vec::new(),
            run,
            all,
            set,
        };
        let random = trial.octets(&vec![0; trial.draws()]);
        let [keys, _] = trial.both(&random.all());
        trial.public_key = keys.public_key;
        trial
    }

    fn note(&mut self, what: Tried) {
        self.all.note(self.set, what);
    }

    fn expect(&self, fact: bool, words: &str) {
        self.run.expect(fact, self.set, words);
    }

    /// All draws of edition 2.
    fn draws(&self) -> usize {
        self.drawn.iter().map(Vec::len).sum()
    }

    /// The draws that edition 2 throws away are those from here on.
    fn first_thrown(&self) -> usize {
        self.drawn[0].len()
    }

    /// With so many dropped groups before each draw.
    fn octets(&mut self, before: &[usize]) -> Octets {
        let (set, prng) = (self.set, &mut self.run.prng);
        let mut parts = [self.secret.concat(), Vec::new()];
        let mut groups = [0, 0];
        let mut before = before.iter();
        for which in [0, 1] {
            for (&number, &dropped) in self.drawn[which].iter().zip(before.by_ref()) {
                parts[which].extend((0..dropped).flat_map(|_| inputs::dropped_group(set, prng)));
                parts[which].extend(inputs::group(set, number, prng));
                groups[which] += dropped;
            }
        }
        let [first, thrown] = parts;
        Octets {
            first,
            thrown,
            groups,
            elements: 0,
        }
    }
}

impl Trial<'_> {
    /// Both editions on these octets, with what holds on any octets.
    fn both(&mut self, random: &[u8]) -> [Keys; 2] {
        let (set, lengths) = (self.set, KeygenLengths::of(self.set));
        let made =
            EDITIONS.map(|edition| keygen(self.run, set.in_edition(edition), random, lengths));
        let [first, second] = &made;
        let numbers = [first.number, second.number];
        let right = [[0, 0], [0, 9], [9, 9]].contains(&numbers);
        self.expect(right, "octets for edition 2 are enough for edition 1");
        if numbers == [0, 0] {
            let same = first.secret_key == second.secret_key
                && first.public_key == second.public_key
                && first.dropped_elements == second.dropped_elements;
            self.expect(same, "the same keys in both editions");
            let further = second.dropped_groups.wrapping_sub(first.dropped_groups);
            let groups = u64::from(set.n).wrapping_add(further);
            let used = first
                .used
                .wrapping_add(groups.wrapping_mul(set.qlen() as u64));
            let right = first.dropped_groups <= second.dropped_groups && second.used == used;
            self.expect(right, "the thrown draws are all that differs");
        }
        made
    }

    /// Edition 1 uses the first part of these octets, edition 2 all of them. A group behind them that would be dropped
    /// isn't examined.
    fn gives(&mut self, octets: &Octets) {
        let all = octets.all();
        let behind = inputs::dropped_group(self.set, &mut self.run.prng);
        for random in [&all, &[&all[..], &behind].concat()] {
            let made = self.both(random);
            for (keys, wanted) in made.iter().zip(octets.told()) {
                let told = [keys.used, keys.dropped_groups, keys.dropped_elements];
                let right = keys.number == 0
                    && told == wanted
                    && keys.secret_key == self.secret.concat()
                    && keys.public_key == self.public_key;
                self.expect(right, "the keys, and what is told of the octets");
            }
        }
        let numbers = self.both(&octets.first).map(|keys| keys.number);
        self.expect(numbers == [0, 9], "edition 2 draws n further ones");
    }

    /// So many groups are dropped before each draw.
    fn drops(&mut self, before: &[usize]) {
        let octets = self.octets(before);
        self.gives(&octets);
        self.note(Tried::dropped(before));
    }

    fn drops_before(&mut self, draw: usize, groups: usize) {
        let mut before = vec![0; self.draws()];
        before[draw] = groups;
        self.drops(&before);
    }

    /// Elements are dropped too, so many before u_x and so many before u_y.
    fn drops_elements(&mut self, elements: [usize; 2]) {
        let (set, turns) = (self.set, self.draws());
        let by_turns: Vec<usize> = (0..turns).map(|turn| turn % 2).collect();
        let mut octets = self.octets(&by_turns);
        let coefficients = octets.first.split_off(set.secret_key_octets());
        octets.first.clear();
        for (element, &dropped) in self.secret.iter().zip(&elements) {
            let dropped = with_top(set, element, 0).repeat(dropped);
            octets.first.extend([&dropped[..], element].concat());
        }
        octets.first.extend(coefficients);
        octets.elements = elements.iter().sum();
        self.gives(&octets);
        self.note(Tried::Elements(elements));
    }

    /// What is thrown away is nothing to the keys.
    fn throws(&mut self, thrown: Thrown) {
        let (q, n) = (self.set.q, self.set.places());
        self.drawn[1] = match thrown {
            Thrown::Zeros => vec![0; n],
            Thrown::Tops => vec![q - 1; n],
            Thrown::Any => inputs::below(q, n, &mut self.run.prng),
        };
        self.drops(&vec![0; self.draws()]);
        self.note(Tried::Thrown(thrown));
    }

    /// The octets end after so many.
    fn ends(&mut self, octets: &Octets, lengths: impl Iterator<Item = usize>) {
        let all = octets.all();
        let needed = [octets.first.len(), all.len()];
        for length in lengths {
            let numbers = self.both(&all[..length]).map(|keys| keys.number);
            let wanted = needed.map(|needed| if length < needed { 9 } else { 0 });
            self.expect(numbers == wanted, "what is enough in each edition");
            self.note(Tried::Ends(length));
        }
    }

    /// A group is dropped before the last draw of the key, the first that is thrown away and the last; the octets end
    /// anywhere or, where there are many, from the last of edition 1 to the first thrown draw and in the last one.
    fn ends_anywhere(&mut self) {
        let (first, qlen) = (self.first_thrown(), self.set.qlen());
        let mut before = vec![0; self.draws()];
        for draw in [first - 1, first, self.draws() - 1] {
            before[draw] = 1;
        }
        let octets = self.octets(&before);
        let (short, long) = (octets.first.len(), octets.all().len());
        match self.set.n {
            ..=9 => self.ends(&octets, 0..=long),
            _ => self.ends(
                &octets,
                (short - 1..=short + 2 * qlen).chain(long - 2 * qlen..=long),
            ),
        }
    }

    /// Any octets, cut where neither edition has enough of them, where edition 1 alone has, and where both have.
    fn any(&mut self) {
        let (set, groups) = (self.set, 4 * self.draws() + 64);
        let length = groups * set.qlen() + 64 * set.small_octets();
        let random = self.run.prng.octets(length);
        let made = self.both(&random);
        let enough = made.iter().all(|keys| keys.number == 0);
        self.expect(enough, "these are enough");
        let [first, second] = made.map(|keys| keys.used as usize);
        for (enough, range) in [
            (Enough::Neither, 0..first),
            (Enough::First, first..second),
            (Enough::Both, second..length),
        ] {
            let at = range.start + self.run.prng.below(range.len() as u64) as usize;
            let numbers = self.both(&random[..at]).map(|keys| keys.number);
            self.expect(numbers == enough.numbers(), "enough of any octets");
            self.note(Tried::Any(enough));
        }
    }
}

impl Trial<'_> {
    /// What takes few products.
    pub fn few(&mut self) {
        let (first, last) = (self.first_thrown(), self.draws() - 1);
        self.drops_before(first, 1);
        self.drops_before(last, 3);
        self.drops(&vec![1; self.draws()]);
        self.throws(Thrown::Any);
        self.ends_anywhere();
        self.any();
    }

    pub fn everything(&mut self) {
        let (first, last) = (self.first_thrown(), self.draws() - 1);
        self.few();
        let thrown: Vec<usize> = match self.set.n {
            ..=9 => (first..=last).collect(),
            _ => vec![first, (first + last) / 2, last],
        };
        for draw in [0, first - 1].into_iter().chain(thrown) {
            self.drops_before(draw, 1);
            self.drops_before(draw, 3);
        }
        self.throws(Thrown::Zeros);
        self.throws(Thrown::Tops);
        for elements in [[1, 0], [0, 1], [3, 2]] {
            self.drops_elements(elements);
        }
        if self.set.l == 2 && self.set.n == 2 && self.set.d() == 2 {
            self.drops_before(first, MANY);
            self.drops_before(last, MANY);
        }
        for _ in 0..4 {
            self.any();
        }
    }
}
