//! Ways to make an argument wrong, each at the boundary of its refusal.

use reference::prng::Prng;
use reference::set::bound;
use reference::Set;

use crate::inputs::with_top;
use crate::order;
use crate::sets::MOST_Q;

fn pick(list: &[u32], prng: &mut Prng) -> u32 {
    list[prng.below(list.len() as u64) as usize]
}

/// Editions that aren't accepted: next to those that are, the same modulo 2^8 and 2^16, and far off.
pub const WRONG_EDITIONS: [u32; 8] = [0, 3, 4, 257, 258, 65_538, 1 << 31, u32::MAX];

/// The set with a refusal of sets added: numbers next to what is accepted, and far off.
/// The refusals of the other numbers stay as they are where l, n and the degrees are accepted.
pub fn spoil_set(set: Set, number: u32, prng: &mut Prng) -> Set {
    let mut spoiled = set;
    let accepted = reference::check(Set { mlen: 0, ..set }.in_edition(1)) == 0;
    match number {
        1 => spoiled.l = pick(&[0, 1, 3, 5, 6, 7, 9, 15, 17, 32, 258, u32::MAX], prng),
        2 => spoiled.n = pick(&[0, 1, 4097, 65_538, 1 << 31, u32::MAX], prng),
        3 => {
            let wrong = pick(&[0, 3, 4, 257, 1 << 31, u32::MAX], prng);
            match prng.below(3) {
                0 => spoiled.dx = wrong,
                1 => spoiled.dr = wrong,
                _ => (spoiled.dx, spoiled.dr) = (wrong, wrong),
            }
        }
        4 => {
            let mut list = vec![0, 1, MOST_Q + 1, u32::MAX];
            if accepted {
                let at = bound(set.l, set.n, set.d()) as u32;
                list.extend([at, at, at - 1]);
            }
            spoiled.q = pick(&list, prng);
        }
        5 => {
            let b = reference::set::small_bits(set.l).unwrap_or(1);
            let whole = set.n.min(4096) * b;
            let mut list = vec![whole + 1, whole + b, 1 << 31, u32::MAX];
            if b > 1 {
                list.extend([1, whole.saturating_sub(1), set.mlen.min(whole) / b * b + 1]);
            }
            // Some of these are multiples of b and not above the whole.
            list.retain(|&mlen| mlen > whole || mlen % b != 0);
            spoiled.mlen = pick(&list, prng);
        }
        18 => spoiled.edition = pick(&WRONG_EDITIONS, prng),
        _ => unreachable!("a refusal of sets"),
    }
    spoiled
}

/// A wrong length: one off, none, twice as many, or some more.
pub fn spoil_length(length: usize, prng: &mut Prng) -> usize {
    let more = 2 + prng.below(64) as usize;
    match prng.below(6) {
        0 if length > 0 => length - 1,
        1 if length > 0 => 0,
        2 if length > 0 => 2 * length,
        3 if length > 0 => prng.below(length as u64) as usize,
        4 => length + more,
        _ => length + 1,
    }
}

/// The input cut or filled up to a wrong length.
pub fn spoil_input(input: &mut Vec<u8>, prng: &mut Prng) {
    let length = spoil_length(input.len(), prng);
    let more = prng.octets(length.saturating_sub(input.len()));
    input.truncate(length);
    input.extend(more);
}

/// Sets an unused bit past `used_bits`, and perhaps more of them; `false` if there is none.
pub fn spoil_padding(packed: &mut [u8], used_bits: usize, prng: &mut Prng) -> bool {
    let unused = 8 * packed.len() - used_bits;
    if unused == 0 {
        return false;
    }
    for _ in 0..1 + prng.below(2) {
        let bit = match prng.below(3) {
            0 => used_bits,
            1 => 8 * packed.len() - 1,
            _ => used_bits + prng.below(unused as u64) as usize,
        };
        packed[bit / 8] |= 1 << (bit % 8);
    }
    true
}

/// Makes a coefficient q or more: the first, the last or another; q itself, the largest number of
/// qlen octets, one whose low bits alone would be below q, or another.
pub fn spoil_coefficient(set: Set, octets: &mut [u8], prng: &mut Prng) {
    let qlen = set.qlen();
    let places = octets.len() / qlen;
    let place = match prng.below(3) {
        0 => 0,
        1 => places - 1,
        _ => prng.below(places as u64) as usize,
    };
    let number = spoiled_number(set.q, 8 * qlen as u32, prng);
    octets[place * qlen..][..qlen].copy_from_slice(&number.to_le_bytes()[..qlen]);
}

/// A number of at most this many bits that isn't below the limit.
pub fn spoiled_number(limit: u32, bits: u32, prng: &mut Prng) -> u32 {
    let top = ((1u64 << bits) - 1) as u32;
    // Past the bit length of the limit, with low bits that are below it.
    let past = u64::from(limit).next_power_of_two() * (1 + prng.below(3)) + prng.below(2);
    match prng.below(5) {
        0 | 1 => limit,
        2 => top,
        3 if past <= u64::from(top) && past >= u64::from(limit) => past as u32,
        _ => limit + prng.below(u64::from(top - limit) + 1) as u32,
    }
}

/// A way to make a call wrong: a mask. Its lowest bits are the refusals of sets, bit k above them is the call's kind k.
#[derive(Clone, Copy)]
pub struct Way(u32);

/// How many bits are the refusals of sets.
const OF_SET: u32 = order::OF_SET.len() as u32;

impl Way {
    pub fn has(self, kind: u32) -> bool {
        self.0 >> (OF_SET + kind) & 1 == 1
    }

    /// The refusals of sets that it has.
    fn of_set(self) -> impl Iterator<Item = u32> {
        let bits = (0..).zip(order::OF_SET);
        let some = bits.filter(move |(bit, _)| self.0 >> bit & 1 == 1);
        some.map(|(_, number)| number)
    }

    pub fn set(self, set: Set, prng: &mut Prng) -> Set {
        self.of_set()
            .fold(set, |set, number| spoil_set(set, number, prng))
    }

    pub fn length(self, kind: u32, length: usize, prng: &mut Prng) -> usize {
        match self.has(kind) {
            true => spoil_length(length, prng),
            false => length,
        }
    }

    pub fn input(self, kind: u32, input: &mut Vec<u8>, prng: &mut Prng) {
        if self.has(kind) {
            spoil_input(input, prng);
        }
    }

    pub fn coefficient(self, kind: u32, set: Set, octets: &mut [u8], prng: &mut Prng) {
        if self.has(kind) {
            spoil_coefficient(set, octets, prng);
        }
    }

    /// Padding of the first half, of the second, or of both.
    pub fn padding(self, kind: u32, set: Set, secret_key: &mut [u8], prng: &mut Prng) {
        let used_bits = set.places() * set.b() as usize;
        for (half, packed) in secret_key.chunks_mut(set.small_octets()).enumerate() {
            if self.has(kind + half as u32) {
                spoil_padding(packed, used_bits, prng);
            }
        }
    }

    /// A zero top coefficient of the first half, of the second, or of both.
    pub fn top(self, kind: u32, set: Set, secret_key: &mut [u8]) {
        for (half, packed) in secret_key.chunks_mut(set.small_octets()).enumerate() {
            if self.has(kind + half as u32) {
                packed.copy_from_slice(&with_top(set, packed, 0));
            }
        }
    }

    /// The refusal that is given where each kind is that of `numbers`; 0 is a kind that isn't refused.
    pub fn refusal(self, numbers: &[u32]) -> u32 {
        let kinds = (0..).zip(numbers);
        let own = kinds.filter(|(kind, _)| self.has(*kind));
        let own = own.map(|(_, &number)| number);
        order::first(&self.of_set().chain(own).collect::<Vec<_>>())
    }

    /// Random octets cut anywhere, by one, or to none.
    pub fn random(self, kind: u32, random: &mut Vec<u8>, prng: &mut Prng) {
        if self.has(kind) {
            let length = random.len();
            random.truncate(match prng.below(3) {
                0 => 0,
                1 => length - 1,
                _ => prng.below(length as u64) as usize,
            });
        }
    }
}

/// The ways in which a call of so many kinds is made wrong: each kind alone and each pair, the refusals of sets among
/// them, and `more` random choices of several.
pub fn ways(kinds: u32, more: usize, prng: &mut Prng) -> Vec<Way> {
    let all = OF_SET + kinds;
    let mut list = Vec::new();
    for first in 0..all {
        list.push(Way(1 << first));
        for second in 0..first {
            list.push(Way(1 << first | 1 << second));
        }
    }
    for _ in 0..more {
        let mask = (prng.number() & prng.number()) as u32 & ((1 << all) - 1);
        list.push(Way(mask));
    }
    list
}
