//! Request Q-1 of document 02: the groups that draws below q drop, beside the octets used, in both
//! editions. Secrets here are of full degree, so that no element is dropped.

mod common;

use common::{in_both_editions, A};
use reference::draw::{below_q, Draw};
use reference::prng::Prng;
use reference::set::set;
use reference::*;

/// Octets used and groups dropped, as they are before a call.
const OLD: [u64; 2] = [99, 77];

/// q a power of two or just above one, with every l and every pair of degrees: half of the groups
/// are dropped, or nearly so.
const HALF: [Set; 14] = [
    set(2, 64, 2, 1, 1, 2),
    set(2, 131, 2, 1, 1, 2),
    set(2, 256, 2, 1, 1, 2),
    set(2, 257, 2, 1, 1, 0),
    set(2, 65_536, 2, 1, 1, 2),
    set(2, 65_537, 2, 1, 1, 2),
    set(2, 16_777_217, 7, 1, 2, 5),
    set(2, 1_073_741_825, 2, 1, 1, 2),
    set(2, 1_048_577, 9, 2, 1, 0),
    set(4, 4097, 3, 1, 1, 4),
    set(4, 8_388_609, 5, 2, 1, 10),
    set(8, 1_048_577, 9, 1, 1, 27),
    set(8, 1_073_741_825, 6, 2, 2, 18),
    set(16, 1_073_741_825, 5, 1, 2, 20),
];

/// Other q: the smallest, some between two powers of two, and those just below a power of two.
const OTHERS: [Set; 9] = [
    set(2, 36, 2, 1, 1, 2),
    set(2, 255, 2, 1, 1, 2),
    A,
    set(2, 65_535, 11, 1, 1, 11),
    set(4, 50_000, 5, 1, 1, 8),
    set(2, 1_000_003, 9, 2, 1, 0),
    set(4, 467_424_413, 40, 1, 1, 80),
    set(8, 1_700_000_000, 7, 2, 2, 18),
    set(16, 2_147_483_647, 5, 1, 2, 20),
];

fn sets() -> Vec<Set> {
    in_both_editions(&[&HALF[..], &OTHERS].concat())
}

/// What a call of keygen or encrypt gives: the number, its buffers, and the octets used with the
/// groups dropped.
type Given = (u32, Vec<Vec<u8>>, [u64; 2]);

/// Makes keys into marked buffers of these lengths: secret key, public key, work words. The random
/// octets begin with a secret of full degree.
fn keys_of_lengths(set: Set, random: &[u8], lengths: [usize; 3]) -> Given {
    let mut secret_key = vec![0xAA; lengths[0]];
    let mut public_key = vec![0xAA; lengths[1]];
    let [mut used, mut dropped] = OLD;
    let mut elements = 55;
    let number = keygen(
        set,
        random,
        &mut secret_key,
        &mut public_key,
        &mut vec![7; lengths[2]],
        &mut used,
        &mut dropped,
        &mut elements,
    );
    assert_eq!(elements, if number == 0 { 0 } else { 55 });
    (number, vec![secret_key, public_key], [used, dropped])
}

fn keys(set: Set, random: &[u8]) -> Given {
    let lengths = [
        set.secret_key_octets(),
        set.public_key_octets(),
        set.work_words(),
    ];
    keys_of_lengths(set, random, lengths)
}

/// Encrypts into marked buffers of these lengths: ciphertext, work words.
fn ciphertext_of_lengths(
    set: Set,
    public_key: &[u8],
    message: &[u8],
    random: &[u8],
    lengths: [usize; 2],
) -> Given {
    let mut ciphertext = vec![0xAA; lengths[0]];
    let [mut used, mut dropped] = OLD;
    let number = encrypt(
        set,
        public_key,
        message,
        random,
        &mut ciphertext,
        &mut vec![7; lengths[1]],
        &mut used,
        &mut dropped,
    );
    (number, vec![ciphertext], [used, dropped])
}

/// A ciphertext of a message of zeros.
fn ciphertext(set: Set, public_key: &[u8], random: &[u8]) -> Given {
    let message = vec![0; set.message_octets()];
    let lengths = [set.ciphertext_octets(), set.work_words()];
    ciphertext_of_lengths(set, public_key, &message, random, lengths)
}

/// A key of the constant 1: a ciphertext under it is m + r + l * e.
fn constant_1(set: Set) -> Vec<u8> {
    let mut words = vec![0; set.public_key_words()];
    let constant = words.len() - set.places();
    words[constant] = 1;
    let mut octets = vec![0; set.public_key_octets()];
    assert_eq!(public_key_to_octets(set, &words, &mut octets), 0);
    octets
}

/// Random octets for keys: a secret of full degree, then any.
fn octets_for_keys(set: Set, prng: &mut Prng) -> Vec<u8> {
    let small = |prng: &mut Prng| -> Vec<u32> {
        let mut words: Vec<u32> = (0..set.n)
            .map(|_| prng.below(u64::from(set.l)) as u32)
            .collect();
        words[set.places() - 1] = 1 + prng.below(u64::from(set.l - 1)) as u32;
        words
    };
    let words = [small(prng), small(prng)].concat();
    let mut secret = vec![0; set.secret_key_octets()];
    assert_eq!(secret_key_to_octets(set, &words, &mut secret), 0);
    [secret, prng.octets_for(set)].concat()
}

fn qlen(set: Set) -> usize {
    match set.q {
        0..=255 => 1,
        256..=65_535 => 2,
        65_536..=16_777_215 => 3,
        _ => 4,
    }
}

/// The octets of a packed small element.
fn small_octets(set: Set) -> usize {
    let bits = match set.l {
        2 => 1,
        4 => 2,
        8 => 3,
        _ => 4,
    };
    (set.n as usize * bits).div_ceil(8)
}

/// The number of monomials of total degree at most d.
fn monomials(d: u32) -> usize {
    [1, 3, 6, 10, 15][d as usize]
}

/// The draws below q of a run for keys: every key element, in edition 1 without the constant.
fn draws_for_keys(set: Set) -> usize {
    (monomials(set.dx) + set.edition as usize - 2) * set.n as usize
}

/// The draws below q of a run for a ciphertext: the elements of r.
fn draws_for_ciphertext(set: Set) -> usize {
    monomials(set.dr) * set.n as usize
}

/// The octets used for keys where nothing is dropped: u_x and u_y, then the draws below q.
fn fixed_for_keys(set: Set) -> usize {
    2 * small_octets(set) + qlen(set) * draws_for_keys(set)
}

/// The octets used for a ciphertext where nothing is dropped: the draws below q, then e.
fn fixed_for_ciphertext(set: Set) -> usize {
    qlen(set) * draws_for_ciphertext(set) + monomials(set.dx + set.dr) * small_octets(set)
}

/// The fixed part plus qlen times the groups dropped.
fn octets_used(set: Set, fixed: usize, dropped: u64) -> u64 {
    fixed as u64 + qlen(set) as u64 * dropped
}

/// Single draws made one after the other.
fn single_draws(set: Set, octets: &[u8], count: usize) -> Vec<Draw> {
    let mut draws = Vec::new();
    let mut rest = octets;
    for _ in 0..count {
        let draw = below_q(set, rest).expect("enough octets");
        rest = &rest[draw.used..];
        draws.push(draw);
    }
    draws
}

/// The octets that these draws used and the groups that they dropped.
fn totals(draws: &[Draw]) -> [u64; 2] {
    let used: usize = draws.iter().map(|draw| draw.used).sum();
    [
        used as u64,
        draws.iter().map(|draw| draw.dropped_groups).sum(),
    ]
}

/// The groups of q or more before the last of `count` groups below q.
fn groups_of_q_or_more(set: Set, octets: &[u8], count: usize) -> u64 {
    let q = u64::from(set.q);
    let power = (q + 1).next_power_of_two();
    let (mut kept, mut dropped) = (0, 0);
    for group in octets.chunks_exact(qlen(set)) {
        if kept == count {
            break;
        }
        let mut wide = [0; 8];
        wide[..group.len()].copy_from_slice(group);
        if u64::from_le_bytes(wide) % power < q {
            kept += 1;
        } else {
            dropped += 1;
        }
    }
    assert_eq!(kept, count);
    dropped
}

#[test]
fn single_draws_by_hand() {
    let pairs = |pairs: &[u16]| -> Vec<u8> { pairs.iter().flat_map(|x| x.to_le_bytes()).collect() };
    let cases: [(&[u16], u32, usize, u64); 8] = [
        (&[5], 5, 2, 0),
        (&[5, 1459], 5, 2, 0),
        (&[1458], 1458, 2, 0),
        (&[1459, 5], 5, 4, 1),
        // 2049 and 3507 are 1 and 1459 modulo 2048.
        (&[2049, 5], 1, 2, 0),
        (&[3507, 2049], 1, 4, 1),
        (&[2047, 1459, 65_535, 0], 0, 8, 3),
        (&[1459, 1458, 1459], 1458, 4, 1),
    ];
    for (groups, value, used, dropped_groups) in cases {
        let wanted = Draw {
            value,
            used,
            dropped_groups,
        };
        assert_eq!(below_q(A, &pairs(groups)), Some(wanted), "{groups:?}");
    }
    for octets in [&[][..], &[5], &[0xB3, 5], &[0xB3, 5, 5], &[0xFF; 7]] {
        assert_eq!(below_q(A, octets), None, "{octets:?}");
    }
}

/// Groups of three and four octets.
#[test]
fn single_draws_of_wide_groups() {
    let draw = |q, groups: &[u32]| {
        let set = set(2, q, 2, 1, 1, 2);
        let octets: Vec<u8> = groups
            .iter()
            .flat_map(|x| x.to_le_bytes()[..qlen(set)].to_vec())
            .collect();
        below_q(set, &octets).map(|draw| (draw.value, draw.used, draw.dropped_groups))
    };
    // 65,536 and 65,537 have 17 bits: groups are taken modulo 131,072.
    assert_eq!(draw(65_536, &[65_536, 131_072]), Some((0, 6, 1)));
    assert_eq!(draw(65_536, &[131_071, 65_535]), Some((65_535, 6, 1)));
    assert_eq!(draw(65_537, &[65_537, 65_536]), Some((65_536, 6, 1)));
    assert_eq!(draw(65_537, &[131_071, 65_537]), None);
    // With 31 bits, all ones, only q itself is dropped.
    let q = 2_147_483_647;
    assert_eq!(draw(q, &[q, u32::MAX, q - 1]), Some((q - 1, 12, 2)));
    assert_eq!(draw(q, &[u32::MAX - 1, q]), Some((q - 1, 4, 0)));
}

/// Every pair of octets, where a group is one octet.
#[test]
fn every_pair_of_octets() {
    for (q, power) in [
        (36, 64),
        (63, 64),
        (64, 128),
        (65, 128),
        (127, 128),
        (128, 256),
        (131, 256),
        (255, 256),
    ] {
        let set = set(2, q, 2, 1, 1, 2);
        assert_eq!(check(set), 0);
        let kept = |x: u8| Some(u32::from(x) % power).filter(|&value| value < q);
        for (first, second) in (0..=255).flat_map(|x| (0..=255).map(move |y| (x, y))) {
            let wanted = match (kept(first), kept(second)) {
                (Some(value), _) => Some((value, 1, 0)),
                (None, Some(value)) => Some((value, 2, 1)),
                (None, None) => None,
            };
            let got = below_q(set, &[first, second]);
            let got = got.map(|draw| (draw.value, draw.used, draw.dropped_groups));
            assert_eq!(got, wanted, "{q}: {first} {second}");
        }
    }
}

/// Octets used are the fixed part plus qlen times the groups dropped.
#[test]
fn octets_used_and_groups_dropped() {
    let mut prng = Prng::new(11);
    for set in sets() {
        assert_eq!(check(set), 0, "{set:?}");
        let mut dropped_of_all = 0;
        let rounds = 100;
        for _ in 0..rounds {
            let random = octets_for_keys(set, &mut prng);
            let (number, made, [used, dropped]) = keys(set, &random);
            assert_eq!(number, 0);
            assert_eq!(used, octets_used(set, fixed_for_keys(set), dropped));
            dropped_of_all += dropped;

            let random = prng.octets_for(set);
            let (number, _, [used, dropped]) = ciphertext(set, &made[1], &random);
            assert_eq!(number, 0);
            assert_eq!(used, octets_used(set, fixed_for_ciphertext(set), dropped));
            dropped_of_all += dropped;
        }
        if HALF.contains(&set.in_edition(1)) {
            // As many dropped as kept, within a fifth.
            let kept = rounds * (draws_for_keys(set) + draws_for_ciphertext(set)) as u64;
            let fifth = kept / 5;
            assert!(dropped_of_all > kept - fifth && dropped_of_all < kept + fifth);
        }
    }
}

/// The totals are those of single draws made one after the other, and of the groups themselves.
#[test]
fn totals_are_sums_over_single_draws() {
    let mut prng = Prng::new(12);
    for set in sets() {
        for _ in 0..10 {
            let random = octets_for_keys(set, &mut prng);
            let (number, made, [used, dropped]) = keys(set, &random);
            assert_eq!(number, 0);
            let secret = 2 * small_octets(set);
            let (count, rest) = (draws_for_keys(set), &random[secret..]);
            let draws = single_draws(set, rest, count);
            assert_eq!([used - secret as u64, dropped], totals(&draws));
            assert_eq!(dropped, groups_of_q_or_more(set, rest, count));
            let mut words = vec![0; set.public_key_words()];
            assert_eq!(public_key_from_octets(set, &made[1], &mut words), 0);
            // A constant that is drawn is thrown away.
            let others = words.len() - set.places();
            let values = draws.iter().map(|draw| draw.value);
            assert!(values.take(others).eq(words[..others].to_vec()));

            let random = prng.octets_for(set);
            let (number, _, [used, dropped]) = ciphertext(set, &made[1], &random);
            assert_eq!(number, 0);
            let noise = monomials(set.dx + set.dr) * small_octets(set);
            let count = draws_for_ciphertext(set);
            let draws = single_draws(set, &random, count);
            assert_eq!([used - noise as u64, dropped], totals(&draws));
            assert_eq!(dropped, groups_of_q_or_more(set, &random, count));
        }
    }
}

/// With the key 1, a message of zeros and e of zeros the ciphertext is r, of single draws.
#[test]
fn r_is_of_single_draws() {
    let mut prng = Prng::new(13);
    for set in sets() {
        let mut random = prng.octets_for(set);
        let draws = single_draws(set, &random, draws_for_ciphertext(set));
        let [drawn, wanted] = totals(&draws);
        random[drawn as usize..].fill(0);

        let (number, given, [_, dropped]) = ciphertext(set, &constant_1(set), &random);
        assert_eq!((number, dropped), (0, wanted));
        let mut words = vec![77; set.ciphertext_words()];
        assert_eq!(ciphertext_from_octets(set, &given[0], &mut words), 0);
        let (upper, r) = words.split_at(words.len() - draws.len());
        assert!(upper.iter().all(|&x| x == 0));
        assert!(draws.iter().map(|draw| draw.value).eq(r.to_vec()));
    }
}

/// A further group of q or more before each of `count` draws below q, the first at `start`: qlen
/// octets and one group more, and otherwise the same.
fn check_one_more(
    set: Set,
    run: &dyn Fn(&[u8]) -> Given,
    random: &[u8],
    start: usize,
    count: usize,
) {
    let (number, made, [used, dropped]) = run(random);
    assert_eq!(number, 0);
    let wanted = (0, made, [used + qlen(set) as u64, dropped + 1]);
    let mut at = start;
    for draw in single_draws(set, &random[start..], count) {
        for group in [set.q.to_le_bytes(), [0xFF; 4]] {
            let (before, after) = random.split_at(at);
            let longer = [before, &group[..qlen(set)], after].concat();
            assert_eq!(run(&longer), wanted, "{set:?} {at}");
        }
        at += draw.used;
    }
}

#[test]
fn one_more_dropped_group() {
    let mut prng = Prng::new(14);
    for set in sets() {
        let random = octets_for_keys(set, &mut prng);
        let (start, count) = (2 * small_octets(set), draws_for_keys(set));
        check_one_more(set, &|octets| keys(set, octets), &random, start, count);

        let random = prng.octets_for(set);
        let key = constant_1(set);
        let count = draws_for_ciphertext(set);
        let run = |octets: &[u8]| ciphertext(set, &key, octets);
        check_one_more(set, &run, &random, 0, count);
    }
}

/// More dropped groups than 16 bits hold.
#[test]
fn many_dropped_groups() {
    let dropped = [0xB3, 0x05].repeat(70_000);
    let secret = [0x09, 0x04];
    let octets = [0x05, 0, 0x07, 0, 0x64, 0, 0x01, 0];
    let (_, made, report) = keys(A, &[&secret[..], &octets].concat());
    assert_eq!(report, [10, 0]);
    let given = keys(A, &[&secret[..], &dropped, &octets].concat());
    assert_eq!(given, (0, made.clone(), [140_010, 70_000]));

    let (_, wanted, report) = ciphertext(A, &made[1], &[0; 18]);
    assert_eq!(report, [18, 0]);
    let given = ciphertext(A, &made[1], &[&dropped[..], &[0; 18]].concat());
    assert_eq!(given, (0, wanted, [140_018, 70_000]));
}

/// Small elements of ones, which no draw below q would keep, drop nothing.
#[test]
fn small_elements_of_ones_drop_nothing() {
    for set in sets() {
        let secret = vec![0xFF; 2 * small_octets(set)];
        let zeros = vec![0; qlen(set) * draws_for_keys(set)];
        let (number, _, report) = keys(set, &[secret, zeros].concat());
        assert_eq!((number, report), (0, [fixed_for_keys(set) as u64, 0]));

        let zeros = vec![0; qlen(set) * draws_for_ciphertext(set)];
        let noise = vec![0xFF; monomials(set.dx + set.dr) * small_octets(set)];
        let random = [zeros, noise].concat();
        let (number, _, report) = ciphertext(set, &constant_1(set), &random);
        assert_eq!((number, report), (0, [fixed_for_ciphertext(set) as u64, 0]));
    }
}

/// Refusal 9 at every shorter length, then the run with just enough octets. Answers at how many
/// lengths the octets end right after a dropped group.
fn check_every_length(run: &dyn Fn(&[u8]) -> Given, random: &[u8]) -> u64 {
    let (number, made, [used, dropped]) = run(random);
    assert_eq!(number, 0);
    let old: Vec<Vec<u8>> = made.iter().map(|x| vec![0xAA; x.len()]).collect();
    for count in 0..used as usize {
        assert_eq!(run(&random[..count]), (9, old.clone(), OLD), "{count}");
    }
    let enough = &random[..used as usize];
    assert_eq!(run(enough), (0, made, [used, dropped]));
    dropped
}

/// Wherever the octets end, after a dropped group too, numbers and buffers are as before.
#[test]
fn exhausted_at_every_length() {
    let mut prng = Prng::new(15);
    let mut after_dropped_groups = 0;
    for set in in_both_editions(&HALF) {
        let random = octets_for_keys(set, &mut prng);
        after_dropped_groups += check_every_length(&|octets| keys(set, octets), &random);
        let random = prng.octets_for(set);
        let key = constant_1(set);
        after_dropped_groups +=
            check_every_length(&|octets| ciphertext(set, &key, octets), &random);
    }
    assert!(after_dropped_groups > 100, "{after_dropped_groups}");
}

/// Numbers 1 to 5, 18 and 6 to 8, with octets of which some groups would be dropped.
#[test]
fn refusals_keep_the_numbers() {
    let random = [[0xB3, 0x05].repeat(3), vec![0; 40]].concat();
    let for_keys = [&[0x09, 0x04][..], &random].concat();
    let try_keygen = |set, public_key: usize| {
        let (number, _, report) = keys_of_lengths(set, &for_keys, [2, public_key, 16]);
        (number, report)
    };
    let try_encrypt = |set, public_key: &[u8], message: u8| {
        let (number, _, report) =
            ciphertext_of_lengths(set, public_key, &[message], &random, [24, 16]);
        (number, report)
    };
    assert_eq!(try_keygen(A, 12), (0, [16, 3]));
    assert_eq!(try_encrypt(A, &[0; 12], 0), (0, [24, 3]));
    for (set, wanted) in [
        (Set { l: 3, ..A }, 1),
        (Set { n: 1, ..A }, 2),
        (Set { dx: 3, ..A }, 3),
        (Set { q: 1455, ..A }, 4),
        (Set { mlen: 3, ..A }, 5),
        (A.in_edition(3), 18),
    ] {
        assert_eq!(try_keygen(set, 12), (wanted, OLD));
        assert_eq!(try_encrypt(set, &[0; 12], 0), (wanted, OLD));
    }
    assert_eq!(try_keygen(A, 11), (6, OLD));
    assert_eq!(try_encrypt(A, &[0; 11], 0), (6, OLD));
    assert_eq!(try_encrypt(A, &[0; 12], 0x1E), (7, OLD));
    assert_eq!(try_encrypt(A, &[0xFF; 12], 0), (8, OLD));
}
