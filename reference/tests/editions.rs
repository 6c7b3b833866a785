//! Request Q-7 of document 02: edition 1 is the rule of 01; edition 2 also draws the constant,
//! after the others, and throws it away. Any other edition is refused by 18, after 5 and before 6.

mod common;

use std::collections::BTreeMap;
use std::io::Write;
use std::process::{Command, Stdio};

use common::*;
use reference::draw::below_q;
use reference::octets;
use reference::prng::Prng;
use reference::roomsheet::{answer, parse_line};
use reference::set::{bound, set, Length};
use reference::*;

/// Neither 1 nor 2, some of them 1 or 2 in fewer bits.
const WRONG: [u32; 9] = [0, 3, 4, 255, 257, 258, 65_537, (1 << 31) + 2, u32::MAX];

/// Set A in both editions.
const FIRST: Set = A.in_edition(1);
const SECOND: Set = A.in_edition(2);

/// How often each number occurred.
#[derive(Default)]
struct Hits(BTreeMap<u32, u32>);

impl Hits {
    fn count(&mut self, number: u32) {
        *self.0.entry(number).or_default() += 1;
    }

    /// These numbers occurred, each at least `least` times, and no others.
    fn assert_each(&self, numbers: &[u32], least: u32) {
        let occurred: Vec<u32> = self.0.keys().copied().collect();
        assert_eq!(occurred, numbers);
        assert!(self.0.values().all(|&hits| hits >= least), "{:?}", self.0);
    }
}

/// What worked case 2 gives, with these octets used, groups dropped and elements dropped.
fn case_2(report: [u64; 3]) -> Given {
    (0, SECRET_KEY.to_vec(), PUBLIC_KEY.to_vec(), report)
}

/// The octets of worked case 2 end with edition 1's last draw.
#[test]
fn octets_of_case_2() {
    let random = [&SECRET_KEY[..], &TERMS].concat();
    assert_eq!(set(4, 1459, 2, 1, 1, 4), FIRST);
    assert_eq!(keys(FIRST, &random), case_2([10, 0, 0]));
    assert_eq!(keys(SECOND, &random), exhausted(SECOND));
    let longer = [&random[..], &[0xB3, 0x05, 0x01, 0x00, 0x02, 0x00]].concat();
    assert_eq!(keys(FIRST, &longer), case_2([10, 0, 0]));
    assert_eq!(keys(SECOND, &longer), case_2([16, 1, 0]));
}

/// Worked case 2 with other octets for the constant, and with elements and groups dropped before:
/// the same keys in both editions, from every length that suffices.
#[test]
fn case_2_by_hand() {
    type Row = (&'static [u8], &'static [u8], [u64; 3], [u64; 3]);
    let rows: [Row; 9] = [
        (&[9, 4], &[1, 0, 2, 0], [10, 0, 0], [14, 0, 0]),
        (&[9, 4], &[0, 0, 0, 0], [10, 0, 0], [14, 0, 0]),
        (&[9, 4], &[0xB2, 5, 0xB2, 5], [10, 0, 0], [14, 0, 0]),
        // 2048 and 2049 are 0 and 1 modulo 2048, and 4095 is 2047.
        (&[9, 4], &[0, 8, 1, 8], [10, 0, 0], [14, 0, 0]),
        (&[9, 4], &[1, 0, 0xB3, 5, 2, 0], [10, 0, 0], [16, 1, 0]),
        (
            &[9, 4],
            &[0xFF, 15, 1, 0, 0xB3, 5, 2, 0],
            [10, 0, 0],
            [18, 2, 0],
        ),
        (&[1, 9, 0, 3, 4], &[1, 0, 2, 0], [13, 0, 3], [17, 0, 3]),
        (&[9, 4, 0xB3, 5], &[1, 0, 2, 0], [12, 1, 0], [16, 1, 0]),
        (
            &[0xF0, 9, 4, 0xB3, 5],
            &[0xB3, 5, 1, 0, 2, 0],
            [13, 1, 1],
            [19, 2, 1],
        ),
    ];
    for (front, constant, of_first, of_second) in rows {
        // Octets after the last draw aren't examined.
        let random = [front, &TERMS, constant, &[0xB3, 5, 0xFF]].concat();
        for (set, report) in [(FIRST, of_first), (SECOND, of_second)] {
            for count in 0..=random.len() {
                let wanted = if count as u64 >= report[0] {
                    case_2(report)
                } else {
                    exhausted(set)
                };
                assert_eq!(keys(set, &random[..count]), wanted, "{random:?} {count}");
            }
        }
    }
}

/// More dropped groups in the constant than 16 bits hold; none that is kept.
#[test]
fn many_dropped_groups_in_the_constant() {
    let dropped = [0xB3, 0x05].repeat(70_000);
    let random = [&SECRET_KEY[..], &TERMS, &dropped].concat();
    assert_eq!(keys(FIRST, &random), case_2([10, 0, 0]));
    assert_eq!(keys(SECOND, &random), exhausted(SECOND));
    let longer = [&random[..], &[1, 0, 2, 0]].concat();
    assert_eq!(keys(SECOND, &longer), case_2([140_014, 70_000, 0]));
}

/// Every pair of octets as the constant's two groups, where a group is one octet: below 36 modulo
/// 64 it is kept.
#[test]
fn every_pair_of_octets_for_the_constant() {
    let first = set(2, 36, 2, 1, 1, 2);
    let second = first.in_edition(2);
    let others = [2, 3, 35, 0, 17, 5];
    let (number, secret_key, public_key, report) = keys(first, &others);
    assert_eq!((number, report), (0, [6, 0, 0]));
    let made = (0, secret_key, public_key, [8, 0, 0]);
    let mut kept = 0;
    for (x, y) in (0..=255).flat_map(|x| (0..=255).map(move |y| (x, y))) {
        let given = keys(second, &[&others[..], &[x, y]].concat());
        if x % 64 < 36 && y % 64 < 36 {
            assert_eq!(given, made, "{x} {y}");
            kept += 1;
        } else {
            assert_eq!(given, exhausted(second), "{x} {y}");
        }
    }
    assert_eq!(kept, 144 * 144);
}

/// The set's numbers with every edition: those of 01 first, then 18.
#[test]
fn the_edition_is_tested_after_the_others() {
    let mut hits = Hits::default();
    for set in SETS {
        let at = bound(set.l, set.n, set.d()) as u32;
        for (given, number) in [
            (set, 0),
            (Set { l: 3, ..set }, 1),
            (Set { n: 1, ..set }, 2),
            (Set { n: 4097, ..set }, 2),
            (Set { dx: 0, ..set }, 3),
            (Set { dr: 3, ..set }, 3),
            (Set { q: at, ..set }, 4),
            (Set { q: 1 << 31, ..set }, 4),
            (set_with_long_message(set), 5),
        ] {
            for edition in [1, 2].into_iter().chain(WRONG) {
                let wanted = match (number, edition) {
                    (0, 1 | 2) => 0,
                    (0, _) => 18,
                    _ => number,
                };
                assert_eq!(check(given.in_edition(edition)), wanted, "{given:?}");
                hits.count(wanted);
            }
        }
    }
    hits.assert_each(&[0, 1, 2, 3, 4, 5, 18], 36);
}

/// A wrong length is 6 in the editions 1 and 2 and 18 in any other; so are bad octets.
#[test]
fn the_edition_is_tested_before_the_lengths() {
    let good = [2, 12, 1, 24, 16];
    for set in [FIRST, SECOND] {
        assert_eq!(numbers_of_bad_calls(set, good), [9, 7, 7, 7]);
        assert_eq!(numbers_of_bad_calls(set, [1; 5]), [6; 4]);
        assert_eq!(numbers_of_bad_calls(set, [2, 12, 1, 24, 15]), [6; 4]);
    }
    for set in WRONG.map(|edition| A.in_edition(edition)) {
        assert_eq!(numbers_of_bad_calls(set, good), [18; 4]);
        assert_eq!(numbers_of_bad_calls(set, [1; 5]), [18; 4]);
        for at in 0..5 {
            let mut sizes = good;
            sizes[at] -= 1;
            assert_eq!(numbers_of_bad_calls(set, sizes), [18; 4]);
        }
    }
}

/// The set with a message of one coefficient too many.
fn set_with_long_message(set: Set) -> Set {
    Set {
        mlen: set.whole().mlen + set.b(),
        ..set
    }
}

/// A kind of words and octets: its conversions, its words and octets, and whether it is small.
type Kind = (
    fn(Set, &[u8], &mut [u32]) -> u32,
    fn(Set, &[u32], &mut [u8]) -> u32,
    [Length; 2],
    bool,
);

const KINDS: [Kind; 5] = [
    (
        element_from_octets,
        element_to_octets,
        [Set::places, Set::element_octets],
        false,
    ),
    (
        small_from_octets,
        small_to_octets,
        [Set::places, Set::small_octets],
        true,
    ),
    (
        secret_key_from_octets,
        secret_key_to_octets,
        [Set::secret_key_words, Set::secret_key_octets],
        true,
    ),
    (
        public_key_from_octets,
        public_key_to_octets,
        [Set::public_key_words, Set::public_key_octets],
        false,
    ),
    (
        ciphertext_from_octets,
        ciphertext_to_octets,
        [Set::ciphertext_words, Set::ciphertext_octets],
        false,
    ),
];

/// What the calls are given: words and octets of each kind, a message, random octets, and the
/// number of work words.
struct Inputs {
    words: [Vec<u32>; 5],
    octets: [Vec<u8>; 5],
    message: Vec<u8>,
    random: Vec<u8>,
    work: usize,
}

/// Inputs of the right lengths with right coefficients; some secrets have a zero top, and of a
/// short message most ciphertexts have a tail.
fn random_inputs(set: Set, prng: &mut Prng) -> Inputs {
    let words = KINDS.map(|(_, _, [words, _], is_small)| {
        let limit = if is_small { set.l } else { set.q };
        let draw = |_| prng.below(u64::from(limit)) as u32;
        (0..words(set)).map(draw).collect::<Vec<u32>>()
    });
    let octets = [0, 1, 2, 3, 4].map(|i| {
        let (_, to_octets, [_, length], _) = KINDS[i];
        let mut octets = vec![0; length(set)];
        assert_eq!(to_octets(set, &words[i], &mut octets), 0);
        octets
    });
    let kept = &words[1][..(set.mlen / set.b()) as usize];
    let message = octets::pack(set.b(), kept, set.message_octets());
    Inputs {
        words,
        octets,
        message,
        random: prng.octets_for(set),
        work: set.work_words(),
    }
}

/// Spoils one of the inputs, or none.
fn spoil(given: &mut Inputs, prng: &mut Prng) {
    let kind = prng.below(5) as usize;
    let (words, octets) = (&mut given.words[kind], &mut given.octets[kind]);
    match prng.below(24) {
        0 => words[0] = u32::MAX,
        1 => words.push(0),
        2 => octets.fill(0xFF),
        3 => octets.push(0),
        4 => given.message.fill(0xFF),
        5 => given.message.push(0),
        6 | 7 => given.random.truncate(prng.below(20) as usize),
        8 => given.work += 1,
        _ => {}
    }
}

/// What a call gives: its number, and what the octets, words and numbers that it may write hold
/// after it. Before it they hold 0xAA, 7 and 99.
type Outcome = (u32, Vec<u8>, Vec<u32>, Vec<u64>);

fn is_untouched((_, octets, words, numbers): &Outcome) -> bool {
    octets.iter().all(|&x| x == 0xAA)
        && words.iter().all(|&x| x == 7)
        && numbers.iter().all(|&x| x == 99)
}

/// The zero test, encrypt and decrypt.
fn calls_with_work(set: Set, given: &Inputs) -> [Outcome; 3] {
    let [_, _, secret_key, public_key, ciphertext] = &given.octets;
    let (mut zero, mut work) = (99, vec![7; given.work]);
    let number = is_zero(set, secret_key, public_key, &mut work, &mut zero);
    let of_is_zero = (number, Vec::new(), work, vec![u64::from(zero)]);

    let (mut made, mut work) = (vec![0xAA; ciphertext.len()], vec![7; given.work]);
    let [mut used, mut groups] = [99, 99];
    let number = encrypt(
        set,
        public_key,
        &given.message,
        &given.random,
        &mut made,
        &mut work,
        &mut used,
        &mut groups,
    );
    let of_encrypt = (number, made, work, vec![used, groups]);

    let (mut message, mut work) = (vec![0xAA; given.message.len()], vec![7; given.work]);
    let number = decrypt(set, secret_key, ciphertext, &mut message, &mut work);
    let of_decrypt = (number, message, work, Vec::new());

    let outcomes = [of_is_zero, of_encrypt, of_decrypt];
    for (number, _, work, _) in &outcomes {
        assert_work_after(*number, work);
    }
    outcomes
}

/// check, limits, lengths, add and multiply_add; c of the last is 7 at every place.
fn calls_without_work(set: Set, given: &Inputs) -> [Outcome; 5] {
    let (mut at, mut s) = (99, 99);
    let number = limits(set, &mut at, &mut s);
    let of_limits = (number, vec![], vec![], vec![at.into(), s.into()]);

    let mut all = [99; 5];
    let [sk, pk, m, c, w] = &mut all;
    let number = lengths(set, sk, pk, m, c, w);
    let of_lengths = (number, vec![], vec![], all.to_vec());

    let a = &given.octets[4];
    let mut sum = vec![0xAA; a.len()];
    let number = add(set, a, a, &mut sum);
    let of_add = (number, sum, vec![], vec![]);

    let a = &given.words[0];
    let mut c = vec![7; a.len()];
    let number = multiply_add(set, a, a, &mut c);
    let of_multiply_add = (number, vec![], c, vec![]);

    let of_check = (check(set), vec![], vec![], vec![]);
    [of_check, of_limits, of_lengths, of_add, of_multiply_add]
}

/// The conversions, both ways.
fn conversions(set: Set, given: &Inputs) -> Vec<Outcome> {
    let mut outcomes = Vec::new();
    for (i, (from_octets, to_octets, _, _)) in KINDS.into_iter().enumerate() {
        let (words, octets) = (&given.words[i], &given.octets[i]);
        let mut given_words = vec![7; words.len()];
        let number = from_octets(set, octets, &mut given_words);
        outcomes.push((number, vec![], given_words, vec![]));
        let mut given_octets = vec![0xAA; octets.len()];
        let number = to_octets(set, words, &mut given_octets);
        outcomes.push((number, given_octets, vec![], vec![]));
    }
    outcomes
}

/// Every call but keygen: 18 of them.
fn all_but_keygen(set: Set, given: &Inputs) -> Vec<Outcome> {
    let mut outcomes = conversions(set, given);
    outcomes.extend(calls_with_work(set, given));
    outcomes.extend(calls_without_work(set, given));
    assert_eq!(outcomes.len(), 18);
    outcomes
}

/// keygen with the lengths of these inputs, their octets and their work words.
fn keygen_with(set: Set, given: &Inputs) -> Given {
    let [_, _, secret_key, public_key, _] = &given.octets;
    let lengths = [secret_key.len(), public_key.len(), given.work];
    keys_of_lengths(set, &given.random, lengths)
}

/// The set, or one that 01 refuses.
fn perhaps_refused(set: Set, prng: &mut Prng) -> Set {
    match prng.below(20) {
        0 => Set { l: 3, ..set },
        1 => Set { n: 1, ..set },
        2 => Set { dx: 3, ..set },
        3 => Set { q: 35, ..set },
        4 => set_with_long_message(set),
        _ => set,
    }
}

/// Sets and inputs, right and spoilt, `rounds` of each set.
fn for_many_inputs(seed: u64, rounds: u32, mut run: impl FnMut(Set, &Inputs)) {
    let mut prng = Prng::new(seed);
    for set in SETS {
        for _ in 0..rounds {
            let mut given = random_inputs(set, &mut prng);
            for _ in 0..3 {
                spoil(&mut given, &mut prng);
            }
            run(perhaps_refused(set, &mut prng), &given);
        }
    }
}

/// A wrong edition gives 18 in every call, unless a number from 1 to 5 applies, whatever the
/// lengths and the contents are. Outputs and work words are as before.
#[test]
fn every_call_refuses_a_wrong_edition() {
    let mut hits = Hits::default();
    let mut wrong_lengths = 0;
    for_many_inputs(71, 20, |set, given| {
        let number = if check(set) == 0 { 18 } else { check(set) };
        for edition in WRONG {
            let refused = set.in_edition(edition);
            for outcome in all_but_keygen(refused, given) {
                assert_eq!(outcome.0, number, "{refused:?}");
                assert!(is_untouched(&outcome), "{refused:?}");
            }
            let (of_keygen, secret_key, public_key, report) = keygen_with(refused, given);
            assert_eq!((of_keygen, report), (number, OLD), "{refused:?}");
            assert!([secret_key, public_key].concat().iter().all(|&x| x == 0xAA));
        }
        hits.count(number);
        wrong_lengths += u32::from(number == 18 && keygen_with(set, given).0 == 6);
    });
    hits.assert_each(&[1, 2, 3, 4, 5, 18], 5);
    assert!(wrong_lengths > 5, "{wrong_lengths}");
}

/// Every call but keygen answers and writes the same in both editions.
#[test]
fn all_other_calls_are_alike() {
    let mut hits = Hits::default();
    for_many_inputs(72, 60, |set, given| {
        let outcomes = all_but_keygen(set.in_edition(1), given);
        assert_eq!(
            outcomes,
            all_but_keygen(set.in_edition(2), given),
            "{set:?}"
        );
        for (number, ..) in outcomes {
            hits.count(number);
        }
    });
    hits.assert_each(&[0, 1, 2, 3, 4, 5, 6, 7, 8, 9, 10, 14], 20);
}

/// keygen's numbers other than 0 and 9 are the same in both editions, and so is what it leaves.
/// Edition 2 alone may be spent, edition 1 alone never.
#[test]
fn numbers_of_keygen() {
    let mut hits = Hits::default();
    let mut second_alone = 0;
    for_many_inputs(73, 100, |set, given| {
        let [first, second] = [1, 2].map(|edition| keygen_with(set.in_edition(edition), given));
        hits.count(first.0);
        match (first.0, second.0) {
            (0, 0) => {}
            (0, 9) => second_alone += 1,
            _ => assert_eq!(first, second, "{set:?}"),
        }
    });
    hits.assert_each(&[0, 1, 2, 3, 4, 5, 6, 9], 20);
    assert!(second_alone > 5, "{second_alone}");
}

/// The octets that n draws below q use at the front of these, and the groups that they drop.
fn draws_of_a_constant(set: Set, octets: &[u8]) -> [u64; 2] {
    let (mut used, mut groups) = (0, 0);
    for _ in 0..set.n {
        let draw = below_q(set, &octets[used..]).expect("enough octets");
        used += draw.used;
        groups += draw.dropped_groups;
    }
    [used as u64, groups]
}

/// What edition 1 makes from octets, edition 2 makes from those octets followed by any that
/// suffice: the same keys and the same elements dropped.
#[test]
fn from_edition_1_to_edition_2() {
    let mut prng = Prng::new(74);
    let [mut in_constants, mut elements_of_all] = [0; 2];
    for set in SETS {
        let (first, second) = (set, set.in_edition(2));
        for _ in 0..100 {
            let random = octets_with_zeros(set, &mut prng);
            let (number, secret_key, public_key, [used, groups, elements]) = keys(first, &random);
            assert_eq!(number, 0);
            assert_eq!(used, octets_used(first, groups, elements));

            let any = prng.octets_for(set);
            let [more, dropped] = draws_of_a_constant(set, &any);
            let longer = [&random[..used as usize], &any].concat();
            let report = [used + more, groups + dropped, elements];
            let wanted = (0, secret_key, public_key, report);
            assert_eq!(keys(second, &longer), wanted, "{set:?}");
            assert_eq!(report[0], octets_used(second, report[1], elements));

            // No fewer suffice.
            let enough = report[0] as usize;
            assert_eq!(keys(second, &longer[..enough]), wanted, "{set:?}");
            assert_eq!(keys(second, &longer[..enough - 1]), exhausted(second));
            in_constants += dropped;
            elements_of_all += elements;
        }
    }
    assert!(in_constants > 500 && elements_of_all > 500);
}

/// What edition 2 makes from octets, edition 1 makes from them too, and from them without those of
/// the constant.
#[test]
fn from_edition_2_to_edition_1() {
    let mut prng = Prng::new(75);
    let mut in_constants = 0;
    for set in SETS {
        let (first, second) = (set, set.in_edition(2));
        for _ in 0..100 {
            let random = octets_with_zeros(set, &mut prng);
            let (number, secret_key, public_key, report) = keys(second, &random);
            let [used, groups, elements] = report;
            assert_eq!(number, 0);
            assert_eq!(used, octets_used(second, groups, elements));

            let given = keys(first, &random[..used as usize]);
            let [fewer, before, _] = given.3;
            assert_eq!(fewer, octets_used(first, before, elements));
            let wanted = (0, secret_key, public_key, [fewer, before, elements]);
            assert_eq!(given, wanted, "{set:?}");
            assert_eq!(keys(first, &random[..fewer as usize]), wanted, "{set:?}");
            let rest = draws_of_a_constant(set, &random[fewer as usize..]);
            assert_eq!(rest, [used - fewer, groups - before], "{set:?}");
            in_constants += rest[1];
        }
    }
    assert!(in_constants > 500, "{in_constants}");
}

/// At every length: both are spent, edition 2 alone is, or neither. So edition 1 accepts whatever
/// edition 2 accepts.
#[test]
fn numbers_at_every_length() {
    let mut prng = Prng::new(76);
    let [mut both, mut one, mut neither] = [0; 3];
    for set in SETS {
        let random = octets_with_zeros(set, &mut prng);
        let of = [1, 2].map(|edition| keys(set.in_edition(edition), &random));
        assert_eq!([of[0].0, of[1].0], [0, 0]);
        let [used_1, used_2] = [0, 1].map(|i| of[i].3[0] as usize);
        assert!(used_1 + set.qlen() * set.places() <= used_2);
        for count in 0..used_2 + 10 {
            let given = [1, 2].map(|edition| keys(set.in_edition(edition), &random[..count]));
            let spent = exhausted(set);
            let (hits, wanted) = if count < used_1 {
                (&mut both, [spent.clone(), spent])
            } else if count < used_2 {
                (&mut one, [of[0].clone(), spent])
            } else {
                (&mut neither, of.clone())
            };
            assert_eq!(given, wanted, "{set:?} {count}");
            *hits += 1;
        }
    }
    assert!(both > 100 && one > 100 && neither > 100);
}

/// Lines of roomsheet with their answers.
const LINES: [(&str, &str); 18] = [
    ("4 1459 2 1 1 4", "0 1455 1"),
    ("4 1459 2 1 1 4 1", "0 1455 1"),
    ("4 1459 2 1 1 4 2", "0 1455 1"),
    ("4 65521 2 1 1 4 2", "0 1455 45"),
    ("4 1459 2 1 1 4 0", "18"),
    ("4 1459 2 1 1 4 3", "18"),
    ("4 1459 2 1 1 4 4294967295", "18"),
    ("4 1459 2 1 1 4 4294967297", "11"),
    ("4 1455 2 1 1 4 3", "4"),
    ("4 1459 2 1 1 3 3", "5"),
    ("3 0 0 0 0 1 0", "1"),
    ("4 1459 2 1 1 4 01", "11"),
    ("4 1459 2 1 1 4 00", "11"),
    ("4 1459 2 1 1 4 ", "11"),
    ("4 1459 2 1 1 4 2 ", "11"),
    ("4 1459 2 1 1", "11"),
    ("4 1459 2 1 1 4 1 1", "11"),
    ("4 1459 2 1 1 4 3 3", "11"),
];

/// What a program prints on this input.
fn printed(program: &str, input: &str) -> Vec<u8> {
    let mut child = Command::new(program)
        .stdin(Stdio::piped())
        .stdout(Stdio::piped())
        .spawn()
        .expect("the program starts");
    let mut stdin = child.stdin.take().expect("a pipe");
    stdin.write_all(input.as_bytes()).expect("all is read");
    drop(stdin);
    let output = child.wait_with_output().expect("the program ends");
    assert!(output.status.success());
    output.stdout
}

#[test]
fn lines_of_roomsheet() {
    for (line, wanted) in LINES {
        assert_eq!(answer(line.as_bytes()), wanted, "{line}");
    }
    let [input, wanted] = [LINES.map(|row| row.0), LINES.map(|row| row.1)]
        .map(|lines| lines.map(|line| format!("{line}\n")).concat());
    let output = printed(env!("CARGO_BIN_EXE_roomsheet"), &input);
    assert_eq!(String::from_utf8(output).expect("ASCII"), wanted);
}

/// The lines that roomsheet_lines prints.
fn generated_lines() -> Vec<Vec<u8>> {
    let output = printed(env!("CARGO_BIN_EXE_roomsheet_lines"), "");
    output.split(|&x| x == b'\n').map(<[u8]>::to_vec).collect()
}

/// How many fields of digits alone a line has; `None` if it has others.
fn fields_of_digits(line: &[u8]) -> Option<usize> {
    let mut fields = line.split(|&x| x == b' ');
    let is_number = |field: &[u8]| !field.is_empty() && field.iter().all(u8::is_ascii_digit);
    fields
        .all(is_number)
        .then(|| line.split(|&x| x == b' ').count())
}

/// The printed lines have every answer with six numbers but 18, and every answer with seven.
#[test]
fn generated_lines_by_their_fields() {
    let mut hits = [(); 9].map(|()| Hits::default());
    let mut needless_zeros = 0;
    for line in generated_lines() {
        let given = answer(&line);
        let number = given.split(' ').next().expect("a field");
        let number: u32 = number.parse().expect("a number");
        let count = fields_of_digits(&line).unwrap_or(0);
        if let Some(hits) = hits.get_mut(count) {
            hits.count(number);
        }
        if count == 7 && (line.ends_with(b" 01") || line.ends_with(b" 02")) {
            assert_eq!(number, 11);
            needless_zeros += 1;
        }
    }
    // At 0 are those with other fields.
    for count in [0, 1, 5, 8] {
        hits[count].assert_each(&[11], 5);
    }
    hits[6].assert_each(&[0, 1, 2, 3, 4, 5, 11], 20);
    hits[7].assert_each(&[0, 1, 2, 3, 4, 5, 11, 18], 20);
    assert!(needless_zeros > 0);
}

/// With 1 or 2 as a seventh number the answer is that of the six; with another it is 18 where the
/// six are accepted.
#[test]
fn a_seventh_number_after_six() {
    let [mut accepted, mut refused] = [0; 2];
    for line in generated_lines() {
        if fields_of_digits(&line) != Some(6) || parse_line(&line).is_none() {
            continue;
        }
        let and = |end: &str| answer(&[&line[..], end.as_bytes()].concat());
        let of_six = answer(&line);
        let is_accepted = of_six.starts_with("0 ");
        let of_others = if is_accepted { "18" } else { &of_six };
        for end in [" 1", " 2"] {
            assert_eq!(and(end), of_six, "{line:?}");
        }
        for edition in WRONG {
            assert_eq!(and(&format!(" {edition}")), of_others, "{line:?}");
        }
        for end in [
            " ",
            " 01",
            " 02",
            " 1 ",
            " 1 1",
            " 2 2 2",
            "  1",
            " +1",
            " 4294967297",
        ] {
            assert_eq!(and(end), "11", "{line:?}");
        }
        let hits = if is_accepted {
            &mut accepted
        } else {
            &mut refused
        };
        *hits += 1;
    }
    assert!(accepted > 100 && refused > 100, "{accepted} {refused}");
}
