//! Request Q-3 of document 02: the elements of a secret have degree n - 1. keygen drops the others
//! whole, in both editions, and decrypt and the zero test refuse them.

mod common;

use common::*;
use reference::draw::below_q;
use reference::monomials;
use reference::octets;
use reference::prng::Prng;
use reference::set::set;
use reference::*;

/// The number of decrypt; the message is written at 0 only, and the work words are zero.
fn decrypt_number(set: Set, secret_key: &[u8], ciphertext: &[u8]) -> u32 {
    let mut message = vec![0xEE; set.message_octets()];
    let mut work = vec![7; set.work_words()];
    let number = decrypt(set, secret_key, ciphertext, &mut message, &mut work);
    assert!(work.iter().all(|&x| x == 0));
    assert!(number == 0 || message.iter().all(|&x| x == 0xEE));
    number
}

/// The number of the zero test; its answer is written at 0 only, and the work words are zero.
fn is_zero_number(set: Set, secret_key: &[u8], public_key: &[u8]) -> u32 {
    let mut zero = 33;
    let mut work = vec![7; set.work_words()];
    let number = is_zero(set, secret_key, public_key, &mut work, &mut zero);
    assert!(work.iter().all(|&x| x == 0));
    assert_eq!(number == 0, zero != 33);
    number
}

/// The coefficient of t^(n - 1), from the b bits at bit (n - 1) * b.
fn top(set: Set, packed: &[u8]) -> u32 {
    let start = (set.n - 1) * set.b();
    (0..set.b())
        .map(|k| {
            let bit = start + k;
            let octet = u32::from(packed[(bit / 8) as usize]);
            ((octet >> (bit % 8)) & 1) << k
        })
        .sum()
}

/// The unused top bits of a packed element set to zero.
fn without_unused_bits(set: Set, packed: &[u8]) -> Vec<u8> {
    let mut packed = packed.to_vec();
    let used_bits = set.n * set.b() % 8;
    if used_bits != 0 {
        *packed.last_mut().expect("not empty") &= (1 << used_bits) - 1;
    }
    packed
}

/// Worked case 2 with elements dropped: the same keys.
#[test]
fn dropped_elements_by_hand() {
    let cases: [(&[u8], [u64; 3]); 8] = [
        (&[0x09, 0x04], [10, 0, 0]),
        (&[0x01, 0x09, 0x04], [11, 0, 1]),
        (&[0x00, 0x09, 0x03, 0x02, 0x04, 0xB3, 0x05], [15, 1, 3]),
        // u_x is settled before u_y is drawn.
        (&[0x09, 0x03, 0x04], [11, 0, 1]),
        (&[0x09, 0x00, 0x01, 0x02, 0x03, 0x04], [14, 0, 4]),
        (&[0x03, 0x02, 0x01, 0x00, 0x09, 0x04], [14, 0, 4]),
        // Unused top bits are ignored, whether the element is kept or dropped.
        (&[0xF9, 0x84], [10, 0, 0]),
        (&[0xF0, 0xF9, 0x13, 0xA4], [12, 0, 2]),
    ];
    for (front, report) in cases {
        let random = [front, &TERMS].concat();
        let wanted = (0, SECRET_KEY.to_vec(), PUBLIC_KEY.to_vec(), report);
        assert_eq!(keys(A, &random), wanted, "{front:02X?}");
        // Octets after the last draw aren't examined.
        let longer = [&random[..], &[0; 5]].concat();
        assert_eq!(keys(A, &longer), wanted, "{front:02X?}");
        for count in 0..random.len() {
            assert_eq!(keys(A, &random[..count]), exhausted(A), "{front:02X?}");
        }
    }
}

/// No octets of zeros give a secret.
#[test]
fn zeros_are_no_secret() {
    assert_eq!(keys(A, &[0; 40]), exhausted(A));
    // u_x alone, at the end.
    let random = [&[0; 40][..], &[0x09]].concat();
    assert_eq!(keys(A, &random), exhausted(A));
    for set in SETS {
        assert_eq!(keys(set, &[0; 4096]), exhausted(set), "{set:?}");
    }
}

/// 7, 8, 14, 10, with the secret and the ciphertext of the worked list changed.
#[test]
fn order_of_the_numbers() {
    let short = Set { mlen: 2, ..A };
    let mut bad = CIPHERTEXT;
    bad[22..].copy_from_slice(&1459u16.to_le_bytes());
    for (set, secret_key, ciphertext, wanted) in [
        (A, [0x09, 0x04], CIPHERTEXT, 0),
        (short, [0x09, 0x04], CIPHERTEXT, 10),
        (short, [0x01, 0x04], CIPHERTEXT, 14),
        (short, [0x09, 0x00], CIPHERTEXT, 14),
        (A, [0x09, 0x03], CIPHERTEXT, 14),
        (A, [0x01, 0x04], CIPHERTEXT, 14),
        (A, [0x00, 0x00], CIPHERTEXT, 14),
        (A, [0x09, 0x00], bad, 8),
        (A, [0x00, 0x04], bad, 8),
        (A, [0x09, 0x04], bad, 8),
        (A, [0x19, 0x00], bad, 7),
        (A, [0x01, 0x14], bad, 7),
        (A, [0x01, 0x13], CIPHERTEXT, 7),
        (A, [0x10, 0x04], CIPHERTEXT, 7),
    ] {
        let number = decrypt_number(set, &secret_key, &ciphertext);
        assert_eq!(number, wanted, "{} {secret_key:02X?}", set.mlen);
    }

    let mut bad = PUBLIC_KEY;
    bad[10..].copy_from_slice(&1459u16.to_le_bytes());
    for (secret_key, public_key, wanted) in [
        ([0x09, 0x04], PUBLIC_KEY, 0),
        ([0x09, 0x03], PUBLIC_KEY, 14),
        ([0x01, 0x04], PUBLIC_KEY, 14),
        ([0x09, 0x00], bad, 8),
        ([0x19, 0x00], bad, 7),
        ([0x01, 0x13], PUBLIC_KEY, 7),
    ] {
        let number = is_zero_number(A, &secret_key, &public_key);
        assert_eq!(number, wanted, "{secret_key:02X?}");
    }
}

/// The set's numbers and 6 come before 14 and leave the work words.
#[test]
fn set_and_lengths_come_first() {
    let secret_key = [0x09, 0x00];
    for (set, words, wanted) in [
        (Set { l: 3, ..A }, 16, 1),
        (Set { n: 1, ..A }, 16, 2),
        (Set { dx: 3, ..A }, 16, 3),
        (Set { q: 1455, ..A }, 16, 4),
        (Set { mlen: 3, ..A }, 16, 5),
        (A.in_edition(0), 16, 18),
        (A.in_edition(3), 15, 18),
        (A, 15, 6),
        (A, 17, 6),
    ] {
        let old = vec![7; words];
        let (mut message, mut zero, mut work) = ([0xEE], 33, old.clone());
        let number = decrypt(set, &secret_key, &CIPHERTEXT, &mut message, &mut work);
        assert_eq!((number, message), (wanted, [0xEE]));
        assert_eq!(work, old);
        let number = is_zero(set, &secret_key, &PUBLIC_KEY, &mut work, &mut zero);
        assert_eq!((number, zero), (wanted, 33));
        assert_eq!(work, old);

        let (mut sk, mut pk, [mut used, mut groups, mut elements]) = ([0xEE; 2], [0xEE; 12], OLD);
        let random = [&[0; 3][..], &SECRET_KEY, &TERMS].concat();
        let number = keygen(
            set,
            &random,
            &mut sk,
            &mut pk,
            &mut work,
            &mut used,
            &mut groups,
            &mut elements,
        );
        assert_eq!((number, [used, groups, elements]), (wanted, OLD));
        assert_eq!((sk, pk, work), ([0xEE; 2], [0xEE; 12], old));
    }
}

/// Every pair of octets as the secret of set A, with the whole message and with one coefficient.
#[test]
fn every_given_secret_of_two_octets() {
    let short = Set { mlen: 2, ..A };
    let mut tails = 0;
    for (x, y) in (0..=255).flat_map(|x| (0..=255).map(move |y| (x, y))) {
        let wanted = if x > 0x0F || y > 0x0F {
            7
        } else if x < 4 || y < 4 {
            14
        } else {
            0
        };
        assert_eq!(is_zero_number(A, &[x, y], &PUBLIC_KEY), wanted);
        assert_eq!(decrypt_number(A, &[x, y], &CIPHERTEXT), wanted);
        let number = decrypt_number(short, &[x, y], &CIPHERTEXT);
        assert!(number == wanted || (number, wanted) == (10, 0));
        tails += u32::from(number == 10);
    }
    assert!(tails > 0);
}

/// Whether keygen keeps this element, as u_x and as u_y; if not, the next one is taken.
fn is_kept(set: Set, element: &[u8]) -> bool {
    let small = set.small_octets();
    let ones = vec![0xFF; small];
    let zeros = vec![0; 2 * set.public_key_octets()];
    let [as_u_x, as_u_y] = [(0, [element, &ones]), (small, [&ones, element])].map(|(at, front)| {
        let random = [front[0], front[1], &ones, &zeros].concat();
        let (number, secret_key, _, [_, _, elements]) = keys(set, &random);
        assert_eq!(number, 0);
        let drawn = if elements == 0 { element } else { &ones };
        let wanted = without_unused_bits(set, drawn);
        assert_eq!(secret_key[at..][..small], wanted);
        elements
    });
    assert_eq!(as_u_x, as_u_y);
    assert!(as_u_x < 2);
    as_u_x == 0
}

/// The number of the zero test for a secret with this element as u_x, and as u_y.
fn number_of_given(set: Set, element: &[u8]) -> u32 {
    let ones = without_unused_bits(set, &vec![0xFF; set.small_octets()]);
    let key = vec![0; set.public_key_octets()];
    let as_u_x = is_zero_number(set, &[element, &ones].concat(), &key);
    let as_u_y = is_zero_number(set, &[&ones, element].concat(), &key);
    assert_eq!(as_u_x, as_u_y);
    as_u_x
}

/// For l = 8 the top coefficient crosses octets, or leaves higher bits of its octet unused.
#[test]
fn three_bit_coefficients() {
    // Coefficient 2 of three is bits 6 to 8, coefficient 1 of two is bits 3 to 5.
    let three = set(8, 1_048_573, 3, 1, 1, 9);
    let two = set(8, 65_521, 2, 1, 1, 6);
    let cases: [(Set, &[u8], bool, u32); 14] = [
        (three, &[0xC0, 0x00], true, 0),
        (three, &[0x40, 0x00], true, 0),
        (three, &[0x80, 0x00], true, 0),
        (three, &[0x00, 0x01], true, 0),
        (three, &[0x3F, 0x01], true, 0),
        (three, &[0xFF, 0xFF], true, 7),
        (three, &[0x3F, 0x00], false, 14),
        (three, &[0x00, 0x00], false, 14),
        (three, &[0x3F, 0xFE], false, 7),
        (two, &[0x08], true, 0),
        (two, &[0x38], true, 0),
        (two, &[0x07], false, 14),
        (two, &[0xC1], false, 7),
        (two, &[0xC8], true, 7),
    ];
    for (set, element, kept, number) in cases {
        assert_eq!(is_kept(set, element), kept, "{element:02X?}");
        assert_eq!(number_of_given(set, element), number, "{element:02X?}");
    }
}

/// Every packed element of one or two octets: what decides is its bits from (n - 1) * b on, b of
/// them.
#[test]
fn every_element_of_one_or_two_octets() {
    for set in [
        set(2, 36, 2, 1, 1, 2),
        set(2, 65_521, 8, 1, 1, 8),
        A,
        set(4, 16_777_213, 4, 1, 2, 8),
        set(8, 65_521, 2, 1, 1, 6),
        set(16, 2_147_483_647, 2, 2, 2, 8),
        set(8, 1_048_573, 3, 1, 1, 9),
        set(2, 65_521, 9, 1, 1, 9),
        set(4, 65_521, 5, 1, 1, 10),
    ] {
        assert_eq!(check(set), 0, "{set:?}");
        let small = set.small_octets();
        let bits = set.n * set.b();
        for number in 0u32..1 << (8 * small) {
            let element = &number.to_le_bytes()[..small];
            let top = (number >> (bits - set.b())) % set.l;
            assert_eq!(is_kept(set, element), top != 0, "{set:?} {number}");
            let wanted = match (number >> bits, top) {
                (0, 0) => 14,
                (0, _) => 0,
                _ => 7,
            };
            assert_eq!(number_of_given(set, element), wanted, "{set:?} {number}");
        }
    }
}

/// What the octets of a run give, taken one after the other.
struct Walk {
    secret_key: Vec<u8>,
    drawn: Vec<u32>,
    report: [u64; 3],
}

fn walk(set: Set, random: &[u8]) -> Walk {
    let small = set.small_octets();
    let mut packed = random.chunks_exact(small);
    let (mut secret_key, mut elements) = (Vec::new(), 0);
    while secret_key.len() < 2 * small {
        let element = packed.next().expect("enough octets");
        if top(set, element) == 0 {
            elements += 1;
        } else {
            secret_key.extend(without_unused_bits(set, element));
        }
    }

    let mut used = (2 + elements) * small;
    let (mut drawn, mut groups) = (Vec::new(), 0);
    for _ in 0..draws_below_q(set) {
        let draw = below_q(set, &random[used..]).expect("enough octets");
        used += draw.used;
        groups += draw.dropped_groups;
        drawn.push(draw.value);
    }
    Walk {
        secret_key,
        drawn,
        report: [used as u64, groups, elements as u64],
    }
}

/// The keys and the report are those of the octets taken one after the other, the octets used
/// follow from the other two numbers, and the secret is a zero of the key.
#[test]
fn keys_of_random_octets() {
    let mut prng = Prng::new(31);
    let mut groups_of_all = 0;
    for set in in_both_editions(&SETS) {
        assert_eq!(check(set), 0, "{set:?}");
        let mut elements_of_all = 0;
        for _ in 0..200 {
            let random = octets_with_zeros(set, &mut prng);
            let wanted = walk(set, &random);
            let (number, secret_key, public_key, report) = keys(set, &random);
            assert_eq!((number, report), (0, wanted.report), "{set:?}");
            assert_eq!(secret_key, wanted.secret_key);
            let mut words = vec![0; set.public_key_words()];
            assert_eq!(public_key_from_octets(set, &public_key, &mut words), 0);
            let others = words.len() - set.places();
            assert_eq!(words[..others], wanted.drawn[..others]);

            let [used, groups, elements] = report;
            assert_eq!(used, octets_used(set, groups, elements), "{set:?}");
            let mut zero = 33;
            let mut work = vec![7; set.work_words()];
            let number = is_zero(set, &secret_key, &public_key, &mut work, &mut zero);
            assert_eq!((number, zero), (0, 1));
            groups_of_all += groups;
            elements_of_all += elements;
        }
        assert!(elements_of_all > 100, "{set:?} {elements_of_all}");
    }
    assert!(groups_of_all > 1000, "{groups_of_all}");
}

/// Without zeros put in, u_x and u_y together drop 2 / (l - 1) elements on average.
#[test]
fn share_of_dropped_elements() {
    let mut prng = Prng::new(32);
    for set in SETS {
        let rounds = 2000;
        let octets = 64 * set.secret_key_octets() + 8 * set.public_key_octets();
        let dropped: u64 = (0..rounds)
            .map(|_| keys(set, &prng.octets(octets)).3[2])
            .sum();
        let expected = 2 * rounds / u64::from(set.l - 1);
        let fifth = expected / 5;
        assert!(dropped > expected - fifth && dropped < expected + fifth);
    }
}

/// One more element of zero top before u_x or before u_y: ceil(n * b / 8) octets and one element
/// more, and otherwise the same.
#[test]
fn one_more_dropped_element() {
    let mut prng = Prng::new(33);
    for set in in_both_editions(&SETS) {
        let small = set.small_octets();
        let random = octets_with_zeros(set, &mut prng);
        let (number, secret_key, public_key, [used, groups, elements]) = keys(set, &random);
        assert_eq!(number, 0);
        let report = [used + small as u64, groups, elements + 1];
        let wanted = (0, secret_key, public_key, report);

        // Ones below the top coefficient, and in the unused bits.
        let mut words = vec![set.l - 1; set.places()];
        words[set.places() - 1] = 0;
        let mut dropped = octets::pack(set.b(), &words, small);
        for bit in set.places() * set.b() as usize..8 * small {
            dropped[bit / 8] |= 1 << (bit % 8);
        }
        for at in 0..2 + elements as usize {
            let (before, after) = random.split_at(at * small);
            let longer = [before, &dropped, after].concat();
            assert_eq!(keys(set, &longer), wanted, "{set:?} {at}");
        }
    }
}

/// Wherever the octets end, after a dropped element too: 9, and every output is as before.
#[test]
fn exhausted_at_every_length() {
    let mut prng = Prng::new(34);
    for set in in_both_editions(&SETS) {
        let zeros = vec![0; 2 * set.small_octets()];
        let random = [zeros, octets_with_zeros(set, &mut prng)].concat();
        let given = keys(set, &random);
        let [used, _, elements] = given.3;
        assert!(given.0 == 0 && elements >= 2);
        for count in 0..used as usize {
            assert_eq!(keys(set, &random[..count]), exhausted(set), "{count}");
        }
        assert_eq!(keys(set, &random[..used as usize]), given);
    }
}

/// More dropped elements than 16 bits hold.
#[test]
fn many_dropped_elements() {
    let dropped = vec![0x03; 70_000];
    let random = [&dropped[..], &[0x09], &dropped, &[0x04], &TERMS].concat();
    let report = [140_010, 0, 140_000];
    let wanted = (0, SECRET_KEY.to_vec(), PUBLIC_KEY.to_vec(), report);
    assert_eq!(keys(A, &random), wanted);
}

/// The noise of encrypt may have any degree.
#[test]
fn noise_is_not_filtered() {
    for set in SETS {
        let key = vec![0; set.public_key_octets()];
        let message = vec![0; set.message_octets()];
        let r = set.qlen() * monomials::count(set.dr) * set.places();
        let enough = r + monomials::count(set.d()) * set.small_octets();
        let mut ciphertext = vec![0xAA; set.ciphertext_octets()];
        let mut work = vec![7; set.work_words()];
        let (mut used, mut groups) = (99, 77);
        let number = encrypt(
            set,
            &key,
            &message,
            &vec![0; enough],
            &mut ciphertext,
            &mut work,
            &mut used,
            &mut groups,
        );
        assert_eq!((number, used, groups), (0, enough as u64, 0));
        assert!(ciphertext.iter().all(|&x| x == 0));
    }
}

/// The conversions take secrets of any degree.
#[test]
fn conversions_do_not_test_the_top() {
    for (secret_key, words) in [
        ([0x09, 0x00], [1, 2, 0, 0]),
        ([0x01, 0x04], [1, 0, 0, 1]),
        ([0x00, 0x00], [0; 4]),
    ] {
        let (mut got, mut back) = ([77; 4], [0xAA; 2]);
        assert_eq!(secret_key_from_octets(A, &secret_key, &mut got), 0);
        assert_eq!(got, words);
        assert_eq!(secret_key_to_octets(A, &words, &mut back), 0);
        assert_eq!(back, secret_key);
    }
    let (mut words, mut back) = ([77; 2], [0xAA]);
    assert_eq!(small_from_octets(A, &[0x03], &mut words), 0);
    assert_eq!(words, [3, 0]);
    assert_eq!(small_to_octets(A, &words, &mut back), 0);
    assert_eq!(back, [0x03]);
}
