//! keygen and encrypt where groups are dropped, beside the reference implementation. How many are dropped is known
//! without it, and what is drawn is the same as without them.

use std::collections::{BTreeMap, BTreeSet};

use differential::compare::{encrypt, keygen, EncryptLengths, KeygenLengths};
use differential::inputs;
use differential::run::{run_group, Run};
use differential::sets::{bits_of, least_q, sets_of, DEGREES, EDITIONS, MOST_Q, RANGES};
use reference::monomials::count;
use reference::octets::number_from_octets;
use reference::set::{bit_length, set};
use reference::Set;

/// The least accepted q of all; for each qlen numbers just above a power of two, so that a draw ignores bits of a group,
/// and up to 3 octets also so that it ignores none; the largest q, where the group of q itself is the only one dropped.
const MODULI: [u32; 10] = [
    36,
    65,
    129,
    257,
    32_769,
    65_537,
    8_388_609,
    16_777_217,
    1_073_741_825,
    MOST_Q,
];

/// More groups than 16 bits can count.
const MANY: usize = 65_537;

#[derive(Clone, Copy, Debug, PartialEq, Eq, PartialOrd, Ord)]
enum Call {
    Keygen,
    Encrypt,
}

impl Call {
    /// The elements that are drawn below q.
    fn elements(self, set: Set) -> usize {
        match self {
            Call::Keygen => inputs::key_elements(set),
            Call::Encrypt => count(set.dr),
        }
    }
}

/// What was tried with a call and a set.
#[derive(Clone, Copy, Debug, PartialEq, Eq, PartialOrd, Ord)]
enum Tried {
    /// No group is dropped.
    Nowhere,
    /// So many groups are dropped before this draw alone.
    Before { draw: usize, groups: usize },
    /// A group or more is dropped before some draws.
    Somewhere,
    /// A group or more is dropped before every draw.
    Everywhere,
    /// This number is dropped.
    Number(u32),
    /// The octets end so many octets after the groups that are dropped before this draw.
    Ends { draw: usize, octets: usize },
    /// So many octets are missing at the end, and groups are dropped before every draw.
    Short { octets: usize },
    /// Groups that would be dropped stand in the small elements.
    InSmall,
    /// A group that would be dropped stands behind the last octet used.
    Behind,
}

impl Tried {
    /// What it is to drop so many groups before each draw.
    fn accepted(before: &[usize]) -> Self {
        let mut some = before.iter().enumerate().filter(|(_, &groups)| groups > 0);
        match (some.next(), some.count()) {
            (None, _) => Tried::Nowhere,
            (Some((draw, &groups)), 0) => Tried::Before { draw, groups },
            (_, others) if others + 1 == before.len() => Tried::Everywhere,
            _ => Tried::Somewhere,
        }
    }
}

/// A set without its message length: l, q, n, dX, dr and the edition.
type Numbers = [u32; 6];

#[derive(Default)]
struct All {
    tried: BTreeSet<(Call, Numbers, Tried)>,
    /// For each call and q, the groups that calls on any octets dropped, and all that they took.
    any: BTreeMap<(Call, u32), [u64; 2]>,
}

fn numbers_of(set: Set) -> Numbers {
    [set.l, set.q, set.n, set.dx, set.dr, set.edition]
}

/// What a call gave.
struct Answer {
    number: u32,
    written: Vec<u8>,
    used: u64,
    dropped_groups: u64,
}

/// One call with one set.
struct Trial<'a> {
    run: &'a mut Run,
    all: &'a mut All,
    call: Call,
    set: Set,
    public_key: Vec<u8>,
    message: Vec<u8>,
    /// What is drawn below q.
    drawn: Vec<u32>,
    /// What is written then.
    written: Vec<u8>,
    /// How many groups to be dropped were made.
    turn: usize,
}

impl<'a> Trial<'a> {
    fn new(run: &'a mut Run, all: &'a mut All, call: Call, set: Set) -> Self {
        let prng = &mut run.prng;
        let mut trial = Trial {
            public_key: inputs::public_key(set, prng),
            message: inputs::message(set, prng),
            drawn: inputs::below(set.q, call.elements(set) * set.places(), prng),
            written: Vec::new(),
            turn: 0,
            run,
            all,
            call,
            set,
        };
        let random = trial.octets(&vec![0; trial.drawn.len()]);
        trial.written = trial.answer(&random).written;
        trial
    }

    fn note(&mut self, what: Tried) {
        let one = (self.call, numbers_of(self.set), what);
        self.all.tried.insert(one);
    }

    fn answer(&mut self, random: &[u8]) -> Answer {
        let (run, set) = (&mut *self.run, self.set);
        match self.call {
            Call::Keygen => {
                let made = keygen(run, set, random, KeygenLengths::of(set));
                Answer {
                    number: made.number,
                    written: [made.secret_key, made.public_key].concat(),
                    used: made.used,
                    dropped_groups: made.dropped_groups,
                }
            }
            Call::Encrypt => {
                let (key, message) = (&self.public_key, &self.message);
                let made = encrypt(run, set, key, message, random, EncryptLengths::of(set));
                Answer {
                    number: made.number,
                    written: made.ciphertext,
                    used: made.used,
                    dropped_groups: made.dropped_groups,
                }
            }
        }
    }

    /// A group that is dropped: by turns q, the largest number of q's bit length, and any from q on.
    fn dropped_group(&mut self) -> Vec<u8> {
        let (q, top) = (self.set.q, u32::MAX >> self.set.q.leading_zeros());
        let any = q + self.run.prng.below(u64::from(top - q) + 1) as u32;
        let number = [q, top, any][self.turn % 3];
        self.turn += 1;
        if number == q || number == top {
            self.note(Tried::Number(number));
        }
        inputs::group(self.set, number, &mut self.run.prng)
    }

    fn dropped_groups(&mut self, groups: usize) -> Vec<u8> {
        (0..groups).flat_map(|_| self.dropped_group()).collect()
    }

    /// The small elements before the draws below q and those after them. Read as groups they would be dropped.
    fn small(&self) -> [Vec<u8>; 2] {
        let ones = |elements| vec![0xFF; elements * self.set.small_octets()];
        match self.call {
            Call::Keygen => [ones(2), ones(0)],
            Call::Encrypt => [ones(0), ones(count(self.set.d()))],
        }
    }

    /// Are there groups in these octets, and would each be dropped, wherever it begins?
    fn would_be_dropped(&self, octets: &[u8]) -> bool {
        let (q, limit) = (u64::from(self.set.q), 1 << bit_length(self.set.q));
        let mut groups = octets.windows(self.set.qlen());
        let number = |group| u64::from(number_from_octets(group)) % limit;
        groups.len() > 0 && groups.all(|group| number(group) >= q)
    }

    /// Notes groups that would be dropped where a call, which uses so many of these octets, reads none.
    fn note_elsewhere(&mut self, given: &[u8], used: usize) {
        let [first, last] = self.small().map(|octets| octets.len());
        let small = [&given[..first], &given[used - last..used]].concat();
        let places = [
            (&small[..], Tried::InSmall),
            (&given[used..], Tried::Behind),
        ];
        for (octets, what) in places {
            if self.would_be_dropped(octets) {
                self.note(what);
            }
        }
    }

    /// The octets up to the end of the last of these draws, with so many dropped groups before each.
    fn begun(&mut self, before: &[usize]) -> Vec<u8> {
        let [mut found, _] = self.small();
        for (draw, &groups) in before.iter().enumerate() {
            found.extend(self.dropped_groups(groups));
            let (set, number) = (self.set, self.drawn[draw]);
            found.extend(inputs::group(set, number, &mut self.run.prng));
        }
        found
    }

    /// All octets that the call uses.
    fn octets(&mut self, before: &[usize]) -> Vec<u8> {
        let [_, last] = self.small();
        [self.begun(before), last].concat()
    }
}

impl Trial<'_> {
    /// So many groups are dropped before each draw; a group behind the last octet used isn't examined.
    fn accepts(&mut self, before: &[usize]) {
        let random = self.octets(before);
        let longer = [random.clone(), self.dropped_group()].concat();
        let groups: usize = before.iter().sum();
        for given in [&random, &longer] {
            let made = self.answer(given);
            let counts = [made.used, made.dropped_groups];
            let right = made.number == 0
                && counts == [random.len(), groups].map(|count| count as u64)
                && made.written == self.written;
            let words = "dropped groups are counted, and change nothing else";
            self.run.expect(right, self.set, words);
            self.note_elsewhere(given, random.len());
        }
        self.note(Tried::accepted(before));
    }

    /// Groups are dropped before one draw alone.
    fn accepts_before(&mut self, draw: usize, groups: usize) {
        let mut before = vec![0; self.drawn.len()];
        before[draw] = groups;
        self.accepts(&before);
    }

    /// None before any draw; one before every draw, and up to three; by turns none, one and two.
    fn accepts_several(&mut self) {
        let draws = self.drawn.len();
        self.accepts(&vec![0; draws]);
        self.accepts(&vec![1; draws]);
        let prng = &mut self.run.prng;
        let up_to_three: Vec<usize> = (0..draws).map(|_| 1 + prng.below(3) as usize).collect();
        let first = prng.below(3) as usize;
        let by_turns: Vec<usize> = (first..first + draws).map(|turn| turn % 3).collect();
        self.accepts(&up_to_three);
        self.accepts(&by_turns);
    }

    fn is_exhausted(&mut self, random: &[u8]) {
        let number = self.answer(random).number;
        self.run.expect(number == 9, self.set, "the octets end");
    }

    /// The octets end after groups that are dropped before this draw: at once, and in the middle of the group after
    /// them, which is one that is kept or one that is dropped.
    fn ends(&mut self, draw: usize) {
        let (set, prng) = (self.set, &mut self.run.prng);
        let before: Vec<usize> = (0..draw).map(|_| prng.below(2) as usize).collect();
        let dropped = 1 + prng.below(3) as usize;
        let kept = inputs::group(set, self.drawn[draw], prng);
        let random = [self.begun(&before), self.dropped_groups(dropped)].concat();
        self.is_exhausted(&random);
        self.note(Tried::Ends { draw, octets: 0 });
        let next = [kept, self.dropped_group()];
        for octets in 1..set.qlen() {
            for group in &next {
                self.is_exhausted(&[&random, &group[..octets]].concat());
            }
            self.note(Tried::Ends { draw, octets });
        }
    }

    /// The last octet is missing, and all of the last small elements are.
    fn short(&mut self) {
        let random = self.octets(&vec![1; self.drawn.len()]);
        let [_, last] = self.small();
        for octets in [1, last.len()].into_iter().filter(|&octets| octets > 0) {
            self.is_exhausted(&random[..random.len() - octets]);
            self.note(Tried::Short { octets });
        }
    }

    /// Any octets, until a thousand draws were made: where q is just above a power of two nearly half of their
    /// groups are dropped.
    fn any(&mut self) {
        let draws = self.drawn.len();
        for _ in 0..1000usize.div_ceil(draws) {
            let length = (4 * draws + 64) * self.set.qlen() + 16 * self.set.small_octets();
            let random = self.run.prng.octets(length);
            let made = self.answer(&random);
            self.run
                .expect(made.number == 0, self.set, "these are enough");
            let [dropped, groups] = self.all.any.entry((self.call, self.set.q)).or_default();
            *dropped += made.dropped_groups;
            *groups += made.dropped_groups + draws as u64;
        }
    }
}

/// The draws before which groups are dropped: all where there are few, otherwise the first and the last of each
/// element.
fn draws(n: usize, elements: usize) -> Vec<usize> {
    match n {
        ..=8 => (0..elements * n).collect(),
        _ => (0..elements)
            .flat_map(|element| [element * n, element * n + n - 1])
            .collect(),
    }
}

impl Trial<'_> {
    fn everything(&mut self) {
        for draw in draws(self.set.places(), self.call.elements(self.set)) {
            self.accepts_before(draw, 1);
            self.accepts_before(draw, 3);
            self.ends(draw);
        }
        self.accepts_several();
        self.short();
        self.any();
        if self.set.l == 2 && self.set.n == 2 && self.set.d() == 2 {
            self.accepts_before(0, MANY);
            self.accepts_before(self.drawn.len() - 1, MANY);
        }
    }

    /// What takes few products.
    fn few(&mut self) {
        let last = self.drawn.len() - 1;
        self.accepts_before(last, 1);
        self.accepts(&vec![1; last + 1]);
        for draw in [0, last] {
            self.ends(draw);
        }
        self.short();
        self.any();
    }
}

/// Sets of large n with q just above a power of two and full messages.
fn large_sets() -> [Set; 4] {
    [
        (2, 16_777_217, 1201),
        (2, 1_073_741_825, 1201),
        (4, 1_073_741_825, 1201),
        (2, 1_073_741_825, 4096),
    ]
    .map(|(l, q, n)| set(l, q, n, 1, 1, n * bits_of(l)))
}

/// What has to be tried with a call on a set of large n.
fn large_claims(call: Call, set: Set) -> Vec<Tried> {
    let last = set.places() * call.elements(set) - 1;
    let mut list = vec![
        Tried::Before {
            draw: last,
            groups: 1,
        },
        Tried::Everywhere,
        Tried::Short { octets: 1 },
        Tried::Behind,
    ];
    let octets = match call {
        Call::Keygen => 2 * set.small_octets(),
        Call::Encrypt => count(set.d()) * set.small_octets(),
    };
    if octets >= set.qlen() {
        list.push(Tried::InSmall);
    }
    if let Call::Encrypt = call {
        list.push(Tried::Short { octets });
    }
    for draw in [0, last] {
        list.extend((0..set.qlen()).map(|octets| Tried::Ends { draw, octets }));
    }
    list
}

/// What has to be tried with a call on a set of small n: what has to be on one of large n, and more.
fn claims(call: Call, set: Set) -> Vec<Tried> {
    let n = set.places();
    let draws = n * call.elements(set);
    let mut list = large_claims(call, set);
    list.extend([Tried::Nowhere, Tried::Somewhere, Tried::Number(set.q)]);
    list.push(Tried::Number(set.q.next_power_of_two() - 1));
    // The first draw of each element but the first is between two elements.
    let all = 0..draws;
    for draw in all.filter(|draw| n < 81 || draw % n == 0 || draw % n == 80) {
        list.extend([1, 3].map(|groups| Tried::Before { draw, groups }));
        list.extend((0..set.qlen()).map(|octets| Tried::Ends { draw, octets }));
    }
    if (set.l, set.n, set.dx, set.dr) == (2, 2, 1, 1) {
        let groups = 65_537;
        list.extend([0, draws - 1].map(|draw| Tried::Before { draw, groups }));
    }
    list
}

/// The accepted sets with this q and n 2, 8 or 81, their message lengths apart.
fn claimed_sets(q: u32) -> Vec<Set> {
    let rings = [2, 8, 81].into_iter().flat_map(|n| RANGES.map(|l| (n, l)));
    let all = rings.flat_map(|(n, l)| DEGREES.map(|(dx, dr)| set(l, q, n, dx, dr, 0)));
    let fits = |set: &Set| least_q(set.l, set.n, set.d()).is_some_and(|least| least <= q);
    all.filter(fits).collect()
}

/// The editions that a call has to be tried in with this n.
fn claimed_editions(call: Call, n: u32) -> &'static [u32] {
    match (call, n) {
        (Call::Keygen, _) => &[1, 2],
        (Call::Encrypt, 81 | 1201) => &[2],
        _ => &[1],
    }
}

fn was_tried(run: &Run, all: &All, call: Call, set: Set, list: Vec<Tried>) {
    for what in list {
        let seen = all.tried.contains(&(call, numbers_of(set), what));
        run.expect(seen, set, &format!("{call:?}: {what:?} was tried"));
    }
}

/// Everything was tried. Not by `MODULI` and `large_sets`, so that what is left out there is missed here.
fn complete(run: &Run, all: &All) {
    let above = [
        65,
        129,
        257,
        32_769,
        65_537,
        8_388_609,
        16_777_217,
        1_073_741_825,
    ];
    let large = [
        (2, 16_777_217, 1201),
        (2, 1_073_741_825, 1201),
        (4, 1_073_741_825, 1201),
        (2, 1_073_741_825, 4096),
    ];
    for call in [Call::Keygen, Call::Encrypt] {
        for q in above.into_iter().chain([36, 2_147_483_647]) {
            for set in claimed_sets(q) {
                for &edition in claimed_editions(call, set.n) {
                    let set = set.in_edition(edition);
                    was_tried(run, all, call, set, claims(call, set));
                }
            }
        }
        for (l, q, n) in large {
            for &edition in claimed_editions(call, n) {
                let set = set(l, q, n, 1, 1, 0).in_edition(edition);
                was_tried(run, all, call, set, large_claims(call, set));
            }
        }
        for q in above {
            let [dropped, groups] = all.any[&(call, q)];
            let right = 5 * dropped >= 2 * groups;
            run.expect(right, set(2, q, 2, 1, 1, 2), "nearly half are dropped");
        }
    }
}

fn round(run: &mut Run) {
    let mut all = All::default();
    let small = MODULI.into_iter().flat_map(sets_of);
    for set in small.chain(large_sets()) {
        if run.skips() {
            continue;
        }
        // Which edition a set is in is nothing to encrypt.
        let calls = EDITIONS.map(|edition| (Call::Keygen, edition));
        for (call, edition) in calls.into_iter().chain([(Call::Encrypt, 1 + set.n % 2)]) {
            let mut trial = Trial::new(run, &mut all, call, set.in_edition(edition));
            match set.n {
                ..=81 => trial.everything(),
                _ => trial.few(),
            }
        }
    }
    if !run.is_short() {
        complete(run, &all);
    }
}

fn main() {
    let numbers: [(&str, &[u32]); 2] = [("keygen", &[0, 9]), ("encrypt", &[0, 9])];
    run_group("draws", &numbers, round);
}
