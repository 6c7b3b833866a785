//! The ten conversions beside the reference implementation.

use std::collections::BTreeSet;

use differential::compare::{from_octets, to_octets, Kind, KINDS};
use differential::inputs;
use differential::run::{run_group, Run};
use differential::sets::{in_any_edition, largest_n, sets_with, DEGREES, MOST_Q, RANGES};
use differential::spoil::{spoil_coefficient, spoil_input, spoil_length, spoiled_number, ways};
use reference::set::set;
use reference::Set;

/// The n that are tried with every l and degree, beside the largest that is accepted.
const RINGS: [u32; 8] = [2, 3, 7, 8, 9, 64, 1201, 4096];

/// How many coefficients the library takes at once, in one loop or another.
const BLOCKS: [usize; 5] = [32, 64, 128, 256, 512];

/// The ten calls, each with its refusal of what it is given to convert.
fn calls() -> impl Iterator<Item = (&'static str, u32)> {
    KINDS.into_iter().flat_map(|kind| {
        let from = if kind.is_packed() { 7 } else { 8 };
        [(kind.from_name(), from), (kind.to_name(), 8)]
    })
}

/// Both directions on accepted numbers: each gives back what the other was given.
fn there_and_back(run: &mut Run, set: Set, kind: Kind) {
    let words = inputs::below(kind.limit(set), kind.words(set), &mut run.prng);
    converts(run, set, kind, &words);
}

fn converts(run: &mut Run, set: Set, kind: Kind, words: &[u32]) {
    let octets = kind.octets_of(set, words);
    let (number, got) = to_octets(run, set, kind, words, octets.len());
    run.expect(number == 0 && got == octets, set, "words to octets");
    let (number, got) = from_octets(run, set, kind, &octets, words.len());
    run.expect(number == 0 && got == words, set, "octets to words");
}

/// Places to put a number at: all where there are few, otherwise the first, the last, both sides of the
/// middle, where the halves of a secret key meet, and some.
fn places(run: &mut Run, length: usize) -> Vec<usize> {
    if length <= 32 {
        return (0..length).collect();
    }
    let any = (0..4).map(|_| run.prng.below(length as u64) as usize);
    any.chain([0, length / 2 - 1, length / 2, length - 1])
        .collect()
}

/// The places on both sides of where the first block of each size ends and the last one starts.
fn edges(length: usize) -> BTreeSet<usize> {
    BLOCKS
        .into_iter()
        .filter(|&block| block < length)
        .flat_map(|block| [block, (length - 1) / block * block])
        .flat_map(|edge| [edge - 1, edge])
        .collect()
}

/// All the numbers at some places, and those next to the limit at the edges.
fn trials(run: &mut Run, length: usize, limit: u32, numbers: &[u32]) -> Vec<(usize, u32)> {
    let mut list = Vec::new();
    for place in places(run, length) {
        list.extend(numbers.iter().map(|&number| (place, number)));
    }
    for place in edges(length) {
        list.extend([(place, limit - 1), (place, limit)]);
    }
    list
}

/// One word at the limits of what is accepted, the others anything.
fn boundary_words(run: &mut Run, set: Set, kind: Kind) {
    let limit = kind.limit(set);
    let mut numbers = vec![0, limit - 1, limit, limit + 1, u32::MAX, 1 << 31];
    if set.qlen() < 4 {
        // Numbers whose low octets alone are accepted.
        let past = 1 << (8 * set.qlen());
        numbers.extend([past - 1, past, past + 1, past + limit - 1]);
    }
    numbers.extend([256, 256 + limit.min(256) - 1, 1 << 16, 1 << 24]);
    let words = inputs::below(limit, kind.words(set), &mut run.prng);
    for (place, number) in trials(run, words.len(), limit, &numbers) {
        let mut words = words.clone();
        words[place] = number;
        let (answer, _) = to_octets(run, set, kind, &words, kind.octets(set));
        let wanted = if number < limit { 0 } else { 8 };
        run.expect(answer == wanted, set, "a word of l or q or more is 8");
    }
}

/// The same of octets, where they can hold more than what is accepted.
fn boundary_coefficients(run: &mut Run, set: Set, kind: Kind) {
    let (q, qlen, length) = (set.q, set.qlen(), kind.words(set));
    let octets = inputs::coefficients(set, length, &mut run.prng);
    let numbers = [0, q - 1, q, u32::MAX >> (32 - 8 * qlen)];
    for (place, number) in trials(run, length, q, &numbers) {
        let mut octets = octets.clone();
        octets[place * qlen..][..qlen].copy_from_slice(&number.to_le_bytes()[..qlen]);
        let (answer, _) = from_octets(run, set, kind, &octets, length);
        let wanted = if number < q { 0 } else { 8 };
        run.expect(answer == wanted, set, "a coefficient of q or more is 8");
    }
}

/// Each unused bit of a packed element alone, and of either half of a secret key.
fn unused_bits(run: &mut Run, set: Set, kind: Kind) {
    let words = inputs::below(set.l, kind.words(set), &mut run.prng);
    let packed = kind.octets_of(set, &words);
    for start in (0..packed.len()).step_by(set.small_octets()) {
        for bit in set.places() * set.b() as usize..8 * set.small_octets() {
            let mut wrong = packed.clone();
            wrong[start + bit / 8] |= 1 << (bit % 8);
            let (number, _) = from_octets(run, set, kind, &wrong, words.len());
            run.expect(number == 7, set, "an unused bit is 7");
        }
    }
}

/// A secret key's top coefficients may be zero here, with all others l - 1 or 0.
fn zero_tops(run: &mut Run, set: Set) {
    let (kind, n) = (Kind::SecretKey, set.places());
    for other in [0, set.l - 1] {
        for tops in [[0, other], [other, 0], [0, 0]] {
            let mut words = vec![other; kind.words(set)];
            [words[n - 1], words[2 * n - 1]] = tops;
            converts(run, set, kind, &words);
        }
    }
}

/// Each buffer one too short, one too long, and half as long.
fn wrong_lengths(run: &mut Run, set: Set, kind: Kind) {
    let near = |length: usize| [length - 1, length + 1, length / 2];
    let (octets, words) = (kind.octets(set), kind.words(set));
    for length in near(octets) {
        let (from, _) = from_octets(run, set, kind, &vec![0; length], words);
        let (to, _) = to_octets(run, set, kind, &vec![0; words], length);
        run.expect(from == 6 && to == 6, set, "another number of octets is 6");
    }
    for length in near(words) {
        let (from, _) = from_octets(run, set, kind, &vec![0; octets], length);
        let (to, _) = to_octets(run, set, kind, &vec![0; length], octets);
        run.expect(from == 6 && to == 6, set, "another number of words is 6");
    }
}

/// Octets of any kind, of the exact length.
fn garbage(run: &mut Run, set: Set, kind: Kind) {
    let octets = run.prng.octets(kind.octets(set));
    from_octets(run, set, kind, &octets, kind.words(set));
    let words: Vec<u32> = (0..kind.words(set))
        .map(|_| run.prng.number() as u32)
        .collect();
    to_octets(run, set, kind, &words, kind.octets(set));
}

/// The refusals of octets: two lengths, a coefficient, padding of one element and of another.
fn from_refusals(set: Set, kind: Kind) -> [u32; 5] {
    let unused = !(set.n * set.b()).is_multiple_of(8);
    match (kind.is_packed(), unused) {
        (true, true) => [6, 6, 0, 7, 7],
        (true, false) => [6, 6, 0, 0, 0],
        _ => [6, 6, 8, 0, 0],
    }
}

/// Each refusal, and several at once. Kinds 0 and 1 are the lengths, 2 is a coefficient, 3 padding, 4
/// that of a secret key's second half.
fn refusals(run: &mut Run, set: Set, kind: Kind, more: usize) {
    let words = inputs::below(kind.limit(set), kind.words(set), &mut run.prng);
    let octets = kind.octets_of(set, &words);
    let kinds = if kind == Kind::SecretKey { 5 } else { 4 };
    for way in ways(kinds, more, &mut run.prng) {
        let prng = &mut run.prng;
        let mut given = octets.clone();
        let mut words = words.clone();
        if kind.is_packed() {
            way.padding(3, set, &mut given, prng);
        }
        if way.has(2) {
            if !kind.is_packed() {
                spoil_coefficient(set, &mut given, prng);
            }
            let place = prng.below(words.len() as u64) as usize;
            words[place] = spoiled_number(kind.limit(set), 32, prng);
        }
        let wrong = way.set(set, prng);
        let (mut octets_length, mut words_length) = (given.len(), words.len());
        if way.has(0) {
            spoil_input(&mut given, prng);
            octets_length = spoil_length(octets_length, prng);
        }
        let mut words_given = words.clone();
        if way.has(1) {
            words_length = spoil_length(words_length, prng);
            words_given.resize(words_length, 0);
        }
        let (from, _) = from_octets(run, wrong, kind, &given, words_length);
        let (to, _) = to_octets(run, wrong, kind, &words_given, octets_length);
        let right = from == way.refusal(&from_refusals(set, kind)) && to == way.refusal(&[6, 6, 8]);
        run.expect(right, wrong, "the first refusal that applies");
    }
}

fn one_set(run: &mut Run, set: Set) {
    for kind in KINDS {
        let rounds = if set.n <= 64 { 6 } else { 1 };
        for _ in 0..rounds {
            there_and_back(run, set, kind);
        }
        boundary_words(run, set, kind);
        if kind.is_packed() {
            unused_bits(run, set, kind);
        } else {
            boundary_coefficients(run, set, kind);
        }
        garbage(run, set, kind);
        wrong_lengths(run, set, kind);
        refusals(run, set, kind, if set.n <= 64 { 20 } else { 4 });
    }
    zero_tops(run, set);
}

/// Worked case 7: coefficient 1458 of a key is accepted, 1459 is refusal 8.
fn worked(run: &mut Run) {
    let set = set(4, 1459, 2, 1, 1, 4);
    let key = [5, 0, 7, 0, 0x64, 0, 1, 0, 0x9F, 5, 0x3E, 5];
    let words = [5, 7, 100, 1, 1439, 1342];
    let (number, got) = from_octets(run, set, Kind::PublicKey, &key, 6);
    run.expect(number == 0 && got == words, set, "the key of case 2");
    let (number, got) = to_octets(run, set, Kind::PublicKey, &words, 12);
    run.expect(number == 0 && got == key, set, "the key of case 2");
    for (coefficient, wanted) in [(1458u32, 0), (1459, 8), (2049, 8)] {
        let mut key = key;
        key[..2].copy_from_slice(&coefficient.to_le_bytes()[..2]);
        let (number, _) = from_octets(run, set, Kind::PublicKey, &key, 6);
        run.expect(number == wanted, set, "case 7");
    }
    let (number, got) = from_octets(run, set, Kind::Small, &[0x09], 2);
    run.expect(number == 0 && got == [1, 2], set, "1 + 2t is 09");
    let (number, _) = from_octets(run, set, Kind::Small, &[0x19], 2);
    run.expect(number == 7, set, "an unused bit is 7");
    let (number, got) = from_octets(run, set, Kind::SecretKey, &[0x09, 0x04], 4);
    run.expect(
        number == 0 && got == [1, 2, 0, 1],
        set,
        "the secret of case 2",
    );
    let (number, got) = to_octets(run, set, Kind::SecretKey, &[1, 2, 0, 1], 2);
    run.expect(
        number == 0 && got == [0x09, 0x04],
        set,
        "the secret of case 2",
    );
}

/// No q is accepted: refusal 4, whatever the lengths are.
fn too_large(run: &mut Run, l: u32, n: u32, (dx, dr): (u32, u32)) {
    let set = in_any_edition(set(l, MOST_Q, n, dx, dr, 0), &mut run.prng);
    for kind in KINDS {
        let length = kind.words(set);
        from_octets(run, set, kind, &vec![0; kind.octets(set)], length);
        to_octets(run, set, kind, &vec![0; length], kind.octets(set));
    }
}

/// The n of the list and the largest that is accepted.
fn rings(l: u32, (dx, dr): (u32, u32)) -> BTreeSet<u32> {
    let largest = largest_n(l, dx + dr);
    RINGS.into_iter().chain([largest]).collect()
}

/// Each call accepted, and refused for what it held, with every l and every qlen; it accepted every n
/// of the list, and the largest of each l.
fn nothing_left_out(run: &Run) {
    for (call, refused) in calls() {
        for number in [0, refused] {
            for l in RANGES {
                let seen = run.gave(call, number, |shape| shape.l == l);
                assert!(seen, "{call} never answered {number} with l {l}");
            }
            for qlen in 1..=4 {
                let seen = run.gave(call, number, |shape| shape.qlen == qlen);
                assert!(seen, "{call} never answered {number} with qlen {qlen}");
            }
        }
        for n in RINGS {
            let seen = run.gave(call, 0, |shape| shape.n == n);
            assert!(seen, "{call} never accepted n {n}");
        }
        for l in RANGES {
            let n = largest_n(l, 2);
            let seen = run.gave(call, 0, |shape| (shape.l, shape.n) == (l, n));
            assert!(seen, "{call} never accepted n {n} with l {l}");
        }
    }
}

fn round(run: &mut Run) {
    worked(run);
    for l in RANGES {
        for degrees in DEGREES {
            for n in rings(l, degrees) {
                let sets = sets_with(l, n, degrees, &mut run.prng);
                if sets.is_empty() {
                    too_large(run, l, n, degrees);
                }
                for set in sets {
                    if !run.skips() {
                        one_set(run, set);
                    }
                }
            }
        }
    }
    if !run.is_short() {
        nothing_left_out(run);
    }
}

fn main() {
    let numbers: Vec<(&str, &[u32])> = calls()
        .map(|(call, refused)| match refused {
            7 => (call, &[0, 1, 2, 3, 4, 5, 18, 6, 7][..]),
            _ => (call, &[0, 1, 2, 3, 4, 5, 18, 6, 8][..]),
        })
        .collect();
    run_group("conversions", &numbers, round);
}
