//! keygen where elements are dropped: how many is known, and what is drawn is the same as without them.

use differential::compare::{keygen, KeygenLengths, Keys};
use differential::inputs::{self, of_full_degree, top_bits, with_top};
use differential::run::Run;
use reference::Set;

use crate::tried::{All, Others, Tried, OTHERS};

/// More elements than 8 bits can count, and more than 16 can.
const MANY: usize = 300;
const MORE: usize = 65_537;

/// keygen with one set.
pub struct Trial<'a> {
    run: &'a mut Run,
    all: &'a mut All,
    set: Set,
    /// u_x and u_y as they are drawn.
    kept: [Vec<u8>; 2],
    /// What is drawn below q.
    drawn: Vec<u32>,
    /// The public key that all this gives.
    public_key: Vec<u8>,
    /// How many elements to be dropped were made.
    turn: usize,
}

/// An element in which this bit alone is 1.
fn single(set: Set, bit: usize) -> Vec<u8> {
    let mut element = vec![0; set.small_octets()];
    element[bit / 8] = 1 << (bit % 8);
    element
}

/// The packed element with its unused bits 0.
fn without_unused(set: Set, mut element: Vec<u8>) -> Vec<u8> {
    for bit in top_bits(set).end..8 * element.len() {
        element[bit / 8] &= !(1 << (bit % 8));
    }
    element
}

impl<'a> Trial<'a> {
    pub fn new(run: &'a mut Run, all: &'a mut All, set: Set) -> Self {
        let prng = &mut run.prng;
        let drawn = inputs::below(set.q, inputs::key_elements(set) * set.places(), prng);
        let any = [inputs::small_draw(set, prng), inputs::small_draw(set, prng)];
        let mut trial = Trial {
            run,
            all,
            set,
            kept: any.map(|element| of_full_degree(set, &element)),
            drawn,
            public_key: Vec::new(),
            turn: 0,
        };
        trial.public_key = trial.keeps(trial.kept.clone()).public_key;
        trial
    }

    fn note(&mut self, what: Tried) {
        self.all.note(self.set, what);
    }

    fn answer(&mut self, random: &[u8]) -> Keys {
        keygen(self.run, self.set, random, KeygenLengths::of(self.set))
    }

    fn others(&mut self, others: Others) -> Vec<u8> {
        let length = self.set.small_octets();
        match others {
            Others::Zero => vec![0; length],
            Others::Full => vec![0xFF; length],
            Others::Any => self.run.prng.octets(length),
        }
    }

    /// Elements that are dropped, of each kind by turns.
    fn dropped(&mut self, elements: usize) -> Vec<u8> {
        let mut found = Vec::new();
        for _ in 0..elements {
            let element = self.others(OTHERS[self.turn % 3]);
            found.extend(with_top(self.set, &element, 0));
            self.turn += 1;
        }
        found
    }

    /// So many of them before u_x and before u_y, for a call that is accepted.
    fn dropped_before(&mut self, elements: [usize; 2]) -> [Vec<u8>; 2] {
        [0, 1].map(|which| {
            for turn in self.turn..self.turn + elements[which] {
                let others = OTHERS[turn % 3];
                self.note(Tried::DropsOf { which, others });
            }
            self.dropped(elements[which])
        })
    }

    /// The draws below q, with so many dropped groups before each.
    fn coefficients(&mut self, groups: &[usize]) -> Vec<u8> {
        let (set, prng) = (self.set, &mut self.run.prng);
        let mut found = Vec::new();
        for (&number, &groups) in self.drawn.iter().zip(groups) {
            found.extend((0..groups).flat_map(|_| inputs::dropped_group(set, prng)));
            found.extend(inputs::group(set, number, prng));
        }
        found
    }

    fn is_secret_key(&self, secret_key: &[u8], elements: &[Vec<u8>; 2]) -> bool {
        let wanted = elements.clone().map(|one| without_unused(self.set, one));
        secret_key == wanted.concat()
    }
}

impl Trial<'_> {
    /// These are u_x and u_y; nothing is dropped.
    fn keeps(&mut self, elements: [Vec<u8>; 2]) -> Keys {
        let coefficients = self.coefficients(&vec![0; self.drawn.len()]);
        let random = [elements.concat(), coefficients].concat();
        let made = self.answer(&random);
        let told = [made.used, made.dropped_groups, made.dropped_elements];
        let right = made.number == 0
            && told == [random.len() as u64, 0, 0]
            && self.is_secret_key(&made.secret_key, &elements);
        let words = "elements whose top coefficient isn't zero are kept";
        self.run.expect(right, self.set, words);
        made
    }

    /// These elements before u_x and before u_y are dropped, and so many groups before each draw below q. An element
    /// behind the last octet used isn't examined.
    fn drops(&mut self, before: &[Vec<u8>; 2], groups: &[usize]) {
        let set = self.set;
        let coefficients = self.coefficients(groups);
        let [x, y] = &self.kept;
        let random = [&before[0], x, &before[1], y, &coefficients].map(|octets| &octets[..]);
        let random = random.concat();
        let longer = [random.clone(), vec![0; set.small_octets()]].concat();
        let elements = before.concat().len() / set.small_octets();
        let counts = [random.len(), groups.iter().sum(), elements].map(|count| count as u64);
        for given in [&random, &longer] {
            let made = self.answer(given);
            let told = [made.used, made.dropped_groups, made.dropped_elements];
            let right = made.number == 0
                && told == counts
                && self.is_secret_key(&made.secret_key, &self.kept)
                && made.public_key == self.public_key;
            let words = "dropped elements are counted, and change nothing else";
            self.run.expect(right, set, words);
        }
    }

    /// So many elements are dropped before u_x and before u_y.
    fn drops_before(&mut self, elements: [usize; 2]) {
        let before = self.dropped_before(elements);
        self.drops(&before, &vec![0; self.drawn.len()]);
        self.note(Tried::Drops(elements));
    }

    /// Groups are dropped too, by turns none, one and two.
    fn drops_groups(&mut self, elements: [usize; 2]) {
        let before = self.dropped_before(elements);
        let groups: Vec<usize> = (1..=self.drawn.len()).map(|turn| turn % 3).collect();
        self.drops(&before, &groups);
        self.note(Tried::DropsGroups(elements));
    }

    /// Each bit alone: an element is kept where it is one of the top coefficient's, and dropped where not.
    fn each_bit(&mut self) {
        let set = self.set;
        let (top, all) = (top_bits(set), 0..8 * set.small_octets());
        let others: Vec<usize> = all.filter(|bit| !top.contains(bit)).collect();
        let before: Vec<u8> = others.iter().flat_map(|&bit| single(set, bit)).collect();
        self.drops(&[before.clone(), before], &vec![0; self.drawn.len()]);
        for which in [0, 1] {
            for &bit in &others {
                self.note(Tried::DropsBit { which, bit });
            }
        }
        for (bit, other) in top.clone().zip(top.rev()) {
            self.keeps([bit, other].map(|bit| single(set, bit)));
            self.note(Tried::KeepsBit { which: 0, bit });
            self.note(Tried::KeepsBit {
                which: 1,
                bit: other,
            });
        }
    }

    /// The top coefficient is any, and all others are 0 or l - 1 or any; the unused bits too.
    fn keeps_others(&mut self) {
        let set = self.set;
        for others in OTHERS {
            let elements = [(); 2].map(|()| {
                let top = 1 + self.run.prng.below(u64::from(set.l) - 1) as u32;
                with_top(set, &self.others(others), top)
            });
            self.keeps(elements);
            for which in [0, 1] {
                self.note(Tried::KeepsOf { which, others });
            }
        }
    }

    /// The elements of the public key have no degree to keep to.
    fn keeps_public_key(&mut self) {
        let zeros = vec![0; self.drawn.len() * self.set.qlen()];
        let made = self.answer(&[self.kept.concat(), zeros].concat());
        let right = made.number == 0 && made.public_key.iter().all(|&octet| octet == 0);
        self.run.expect(right, self.set, "a public key of zeros");
        self.note(Tried::KeepsPublicKey);
    }
}

/// Octets that end too early.
impl Trial<'_> {
    fn is_exhausted(&mut self, random: &[u8]) {
        let number = self.answer(random).number;
        self.run.expect(number == 9, self.set, "the octets end");
    }

    /// What is used before u_x or u_y, with elements that are dropped before u_x.
    fn begun(&mut self, which: usize) -> Vec<u8> {
        let elements = self.run.prng.below(3) as usize;
        match which {
            0 => Vec::new(),
            _ => [self.dropped(elements), self.kept[0].clone()].concat(),
        }
    }

    /// Nothing but zeros.
    fn zeros(&mut self, which: usize) {
        for octets in [0, 1, 40, 41, 1000, 10_000] {
            let random = [self.begun(which), vec![0; octets]].concat();
            self.is_exhausted(&random);
            self.note(Tried::Zeros { which, octets });
        }
    }

    /// The octets end after elements that are dropped: at once, and in the middle of the element after them, which is
    /// one that is kept or one that is dropped.
    fn ends(&mut self, which: usize, lengths: impl Iterator<Item = usize>) {
        let elements = 1 + self.run.prng.below(3) as usize;
        let random = [self.begun(which), self.dropped(elements)].concat();
        let next = [self.kept[which].clone(), self.dropped(1)];
        for octets in lengths {
            for element in &next {
                self.is_exhausted(&[&random, &element[..octets]].concat());
            }
            self.note(Tried::Ends { which, octets });
        }
    }

    /// Elements are dropped before both, and the last octet, or every draw below q, is missing.
    fn short(&mut self) {
        let coefficients = self.coefficients(&vec![0; self.drawn.len()]);
        let [x, y] = self.kept.clone();
        let random = [self.dropped(2), x, self.dropped(1), y, coefficients].concat();
        for octets in [1, self.drawn.len() * self.set.qlen()] {
            self.is_exhausted(&random[..random.len() - octets]);
            self.note(Tried::Short { octets });
        }
    }

    /// Any octets, enough of them.
    fn any(&mut self) {
        for _ in 0..5 {
            let groups = 4 * self.drawn.len() + 64;
            let length = groups * self.set.qlen() + 64 * self.set.small_octets();
            let random = self.run.prng.octets(length);
            let made = self.answer(&random);
            let words = "these are enough";
            self.run.expect(made.number == 0, self.set, words);
            *self.all.any.entry(self.set.l).or_default() += made.dropped_elements;
        }
    }
}

impl Trial<'_> {
    /// What takes few products.
    pub fn few(&mut self) {
        let last = self.set.small_octets() - 1;
        self.drops_groups([3, 3]);
        self.each_bit();
        self.short();
        for which in [0, 1] {
            self.zeros(which);
            self.ends(which, [0, 1, last].into_iter());
        }
    }

    pub fn everything(&mut self) {
        self.few();
        for x in [0, 1, 2, 3, MANY] {
            for y in [0, 1, 2, 3, MANY] {
                self.drops_before([x, y]);
            }
        }
        for elements in [[0, 1], [1, 0]] {
            self.drops_groups(elements);
        }
        self.keeps_others();
        self.keeps_public_key();
        for which in [0, 1] {
            self.ends(which, 0..self.set.small_octets());
        }
        if self.set.l == 2 && self.set.n == 2 && self.set.d() == 2 {
            self.drops_before([MORE, 0]);
            self.drops_before([0, MORE]);
        }
        self.any();
    }
}
