//! Properties of document 01, with the secrets of 02's Q-3 and in both editions of its Q-7, on many
//! sets with fixed random octets.

mod common;

use common::numbers_of_bad_calls;
use reference::ledger::Ledger;
use reference::prng::Prng;
use reference::ring;
use reference::scheme::{read_polynomial, read_secret_key};
use reference::set::{bound, headroom, set};
use reference::*;

/// Every l, every pair of degrees, every qlen that a set can have, odd lengths, both editions.
const SETS: [Set; 20] = [
    set(2, 37, 2, 1, 1, 2).in_edition(2),
    set(2, 251, 3, 1, 1, 1),
    set(2, 65_521, 11, 1, 1, 11),
    set(2, 16_777_213, 7, 1, 2, 5),
    set(2, 2_147_483_647, 13, 2, 2, 13).in_edition(2),
    set(2, 1_000_003, 9, 2, 1, 0),
    set(4, 1459, 2, 1, 1, 4),
    set(4, 65_521, 2, 1, 1, 4).in_edition(2),
    set(4, 65_536, 5, 1, 1, 8),
    set(4, 16_777_213, 6, 1, 2, 12).in_edition(2),
    set(4, 2_147_483_647, 9, 2, 2, 14),
    set(4, 467_424_413, 40, 1, 1, 80),
    set(8, 1_048_573, 9, 1, 1, 27),
    set(8, 16_777_213, 3, 1, 2, 9),
    set(8, 2_147_483_647, 7, 2, 2, 18).in_edition(2),
    set(8, 2_147_483_646, 11, 2, 1, 33).in_edition(2),
    set(16, 16_777_215, 8, 1, 1, 32).in_edition(2),
    set(16, 2_147_483_647, 5, 1, 2, 20),
    set(16, 2_147_483_647, 2, 2, 2, 8),
    set(16, 2_147_483_629, 115, 1, 1, 456).in_edition(2),
];

struct Keys {
    secret_key: Vec<u8>,
    public_key: Vec<u8>,
}

/// Makes keys with work words of its own: the number. `report` is the octets used, the groups and
/// the elements dropped.
fn keygen_into(set: Set, random: &[u8], keys: &mut Keys, report: &mut [u64; 3]) -> u32 {
    let mut work = vec![7; set.work_words()];
    let [used, groups, elements] = report;
    let number = keygen(
        set,
        random,
        &mut keys.secret_key,
        &mut keys.public_key,
        &mut work,
        used,
        groups,
        elements,
    );
    assert!(work.iter().all(|&x| x == 0));
    number
}

fn make_keys(set: Set, prng: &mut Prng) -> Keys {
    let random = prng.octets_for(set);
    let mut keys = Keys {
        secret_key: vec![0xAA; set.secret_key_octets()],
        public_key: vec![0xAA; set.public_key_octets()],
    };
    let mut report = [0; 3];
    assert_eq!(keygen_into(set, &random, &mut keys, &mut report), 0);

    // Exactly the octets used are enough, one fewer is not.
    let used = report[0] as usize;
    let mut again = Keys {
        secret_key: vec![0; set.secret_key_octets()],
        public_key: vec![0; set.public_key_octets()],
    };
    let old = [99, 77, 55];
    for (count, number, wanted) in [(used, 0, report), (used - 1, 9, old)] {
        let mut report = old;
        let given = keygen_into(set, &random[..count], &mut again, &mut report);
        assert_eq!((given, report), (number, wanted));
        assert_eq!(again.secret_key, keys.secret_key);
        assert_eq!(again.public_key, keys.public_key);
    }
    keys
}

fn random_message(set: Set, prng: &mut Prng) -> Vec<u8> {
    let mut message = prng.octets(set.message_octets());
    if !set.mlen.is_multiple_of(8) {
        *message.last_mut().expect("mlen isn't 0") &= (1u8 << (set.mlen % 8)) - 1;
    }
    message
}

fn encrypt_ok(set: Set, keys: &Keys, message: &[u8], random: &[u8]) -> Vec<u8> {
    let mut ciphertext = vec![0xAA; set.ciphertext_octets()];
    let mut work = vec![7; set.work_words()];
    let mut used = 0;
    let number = encrypt(
        set,
        &keys.public_key,
        message,
        random,
        &mut ciphertext,
        &mut work,
        &mut used,
        &mut 0,
    );
    assert_eq!(number, 0);
    assert!(used as usize <= random.len());
    assert!(work.iter().all(|&x| x == 0));
    ciphertext
}

fn decrypt_ok(set: Set, keys: &Keys, ciphertext: &[u8]) -> Vec<u8> {
    let mut message = vec![0xAA; set.message_octets()];
    let mut work = vec![7; set.work_words()];
    let number = decrypt(set, &keys.secret_key, ciphertext, &mut message, &mut work);
    assert_eq!(number, 0);
    assert!(work.iter().all(|&x| x == 0));
    message
}

#[test]
fn sets_are_accepted_and_lengths_agree() {
    for set in SETS {
        assert_eq!(check(set), 0, "{set:?}");
        let (mut at, mut s) = (0, 0);
        assert_eq!(limits(set, &mut at, &mut s), 0);
        let (at, s, q) = (u64::from(at), u64::from(s), u64::from(set.q));
        assert!(s >= 1 && s * at < q && (s + 1) * at >= q);

        let (mut sk, mut pk, mut m, mut c, mut w) = (0, 0, 0, 0, 0);
        let number = lengths(set, &mut sk, &mut pk, &mut m, &mut c, &mut w);
        assert_eq!(number, 0);
        let d = set.dx + set.dr;
        let qlen = match set.q {
            0..=255 => 1,
            256..=65_535 => 2,
            65_536..=16_777_215 => 3,
            _ => 4,
        };
        let (n, b) = (u64::from(set.n), u64::from(set.b()));
        assert_eq!(sk, 2 * ((n * b).div_ceil(8)));
        assert_eq!(pk, [3, 6][set.dx as usize - 1] * n * qlen);
        assert_eq!(c, [6, 10, 15][d as usize - 2] * n * qlen);
        assert_eq!(m, u64::from(set.mlen).div_ceil(8));
        assert_eq!(w, 8 * n);
    }
}

#[test]
fn keys_and_messages() {
    let mut prng = Prng::new(1);
    for set in SETS {
        for _ in 0..4 {
            let keys = make_keys(set, &mut prng);
            let mut zero = 99;
            let mut work = vec![7; set.work_words()];
            let number = is_zero(
                set,
                &keys.secret_key,
                &keys.public_key,
                &mut work,
                &mut zero,
            );
            assert_eq!((number, zero), (0, 1));

            // A key with another constant has another value.
            let mut other = keys.public_key.clone();
            let last = other.len() - set.qlen();
            let mut words = vec![0; set.public_key_words()];
            assert_eq!(public_key_from_octets(set, &other, &mut words), 0);
            let end = words.len() - 1;
            words[end] = (words[end] + 1) % set.q;
            assert_eq!(public_key_to_octets(set, &words, &mut other), 0);
            assert_ne!(other[last..], keys.public_key[last..]);
            let number = is_zero(set, &keys.secret_key, &other, &mut work, &mut zero);
            assert_eq!((number, zero), (0, 0));

            let message = random_message(set, &mut prng);
            let random = prng.octets_for(set);
            let ciphertext = encrypt_ok(set, &keys, &message, &random);
            assert_eq!(decrypt_ok(set, &keys, &ciphertext), message);
        }
    }
}

#[test]
fn largest_rings() {
    let mut prng = Prng::new(2);
    for set in [
        set(2, 100_679_684, 4096, 1, 1, 4096).in_edition(2),
        set(4, 467_424_413, 1201, 1, 1, 2402),
        set(8, 2_147_483_647, 510, 1, 1, 1530),
        set(2, 2_147_483_647, 600, 1, 2, 599).in_edition(2),
    ] {
        assert_eq!(check(set), 0, "{set:?}");
        let keys = make_keys(set, &mut prng);
        let message = random_message(set, &mut prng);
        let random = prng.octets_for(set);
        let ciphertext = encrypt_ok(set, &keys, &message, &random);
        assert_eq!(decrypt_ok(set, &keys, &ciphertext), message);
    }
}

/// The worst case: every small coefficient l - 1, and as many ciphertexts as the headroom allows.
#[test]
fn headroom_is_reached_and_not_passed() {
    for set in SETS {
        let at = bound(set.l, set.n, set.d());
        let s = headroom(set.q, at);
        if s > 3000 {
            continue;
        }
        let set = set.whole();
        let words = vec![set.l - 1; set.places()];
        let mut small = vec![0; set.small_octets()];
        assert_eq!(small_to_octets(set, &words, &mut small), 0);
        let keys = Keys {
            secret_key: small.repeat(2),
            public_key: vec![0; set.public_key_octets()],
        };
        let r_octets = reference::monomials::count(set.dr) * set.element_octets();
        let mut random = vec![0; r_octets];
        random.extend(small.repeat(reference::monomials::count(set.d())));

        let one = encrypt_ok(set, &keys, &small, &random);
        let mut total = one.clone();
        let mut last = one.clone();
        for count in 1..=s + 1 {
            if count > 1 {
                assert_eq!(add(set, &last, &one, &mut total), 0);
                last.copy_from_slice(&total);
            }
            let (u_x, u_y) = read_secret_key(set, &keys.secret_key).expect("no padding");
            let c = read_polynomial(set, set.d(), &total).expect("below q");
            let w = ring::value(set.q, &c, &u_x, &u_y);
            let exact = count * at;
            if count <= s {
                assert!(w.iter().all(|&x| u128::from(x) == exact));
                let wanted = (count * u128::from(set.l - 1) % u128::from(set.l)) as u32;
                assert!(w.iter().all(|&x| x % set.l == wanted));
            } else {
                assert!(exact >= u128::from(set.q));
                assert!(w
                    .iter()
                    .all(|&x| u128::from(x) == exact - u128::from(set.q)));
            }
        }
    }
}

/// A random list of encryptions and additions, some refused; every entry within the headroom
/// decrypts as the ledger says.
#[test]
fn ledger_of_sums() {
    let mut prng = Prng::new(3);
    let mut within = 0;
    let mut beyond = 0;
    for set in SETS {
        let keys = make_keys(set, &mut prng);
        let mut ledger = Ledger::new(set);
        let mut ciphertexts: Vec<Vec<u8>> = Vec::new();
        for _ in 0..60 {
            let count = ciphertexts.len() as u64;
            match prng.below(8) {
                0 => {
                    // Too few random octets: no entry.
                    let mut c = vec![0xAA; set.ciphertext_octets()];
                    let mut work = vec![7; set.work_words()];
                    let message = random_message(set, &mut prng);
                    let number = encrypt(
                        set,
                        &keys.public_key,
                        &message,
                        &[1, 2],
                        &mut c,
                        &mut work,
                        &mut 0,
                        &mut 0,
                    );
                    assert_eq!(number, 9);
                }
                1..=3 => {
                    let message = random_message(set, &mut prng);
                    let random = prng.octets_for(set);
                    ciphertexts.push(encrypt_ok(set, &keys, &message, &random));
                    ledger.encrypted(&message);
                }
                _ if count > 0 => {
                    let i = prng.below(count) as usize;
                    let j = prng.below(count) as usize;
                    let mut sum = vec![0xAA; set.ciphertext_octets()];
                    assert_eq!(add(set, &ciphertexts[i], &ciphertexts[j], &mut sum), 0);
                    ciphertexts.push(sum);
                    ledger.added(i, j);
                }
                _ => {}
            }
        }
        for (i, ciphertext) in ciphertexts.iter().enumerate() {
            if ledger.within_headroom(i) {
                assert_eq!(decrypt_ok(set, &keys, ciphertext), ledger.message(i));
                within += 1;
            } else {
                beyond += 1;
            }
        }
    }
    assert!(within > 300 && beyond > 100, "{within} {beyond}");
}

/// Ciphertexts that differ by the key times a polynomial of degree at most dr decrypt alike.
#[test]
fn multiples_of_the_key_change_nothing() {
    let mut prng = Prng::new(4);
    for set in SETS {
        let keys = make_keys(set, &mut prng);
        let message = random_message(set, &mut prng);
        let random = prng.octets_for(set);
        let ciphertext = encrypt_ok(set, &keys, &message, &random);

        let key = read_polynomial(set, set.dx, &keys.public_key).expect("below q");
        let words: Vec<u32> = (0..reference::monomials::count(set.dr) * set.places())
            .map(|_| prng.below(u64::from(set.q)) as u32)
            .collect();
        let factor = ring::Polynomial::from_words(set.dr, set.places(), &words);
        let multiple = ring::polynomial_product(set.q, set.places(), &key, &factor);
        let mut octets = vec![0; set.ciphertext_octets()];
        assert_eq!(
            ciphertext_to_octets(set, &multiple.to_words(), &mut octets),
            0
        );
        let mut other = vec![0; set.ciphertext_octets()];
        assert_eq!(add(set, &ciphertext, &octets, &mut other), 0);
        assert_eq!(decrypt_ok(set, &keys, &other), message);
    }
}

/// The product by its definition, with a division for each term.
#[test]
fn product_by_definition() {
    let mut prng = Prng::new(5);
    for (q, n) in [(2, 2), (1459, 5), (2_147_483_647, 64), (2_147_483_646, 33)] {
        let mut draw = || -> Vec<u32> {
            (0..n)
                .map(|_| q - 1 - (prng.below(u64::from(q)) % 7) as u32 % q)
                .collect()
        };
        let (a, b) = (draw(), draw());
        let coefficient = |k: usize| -> u32 {
            let mut sum = 0;
            for (i, &x) in a.iter().enumerate() {
                for (j, &y) in b.iter().enumerate() {
                    if (i + j) % n == k {
                        sum = (sum + u64::from(x) * u64::from(y) % u64::from(q)) % u64::from(q);
                    }
                }
            }
            sum as u32
        };
        let wanted: Vec<u32> = (0..n).map(coefficient).collect();
        assert_eq!(ring::product(q, &a, &b), wanted);
    }
}

/// Small elements of 6 bits: two unused bits each.
const SIX_BITS: Set = set(4, 4001, 3, 1, 1, 4);

/// Each buffer one too short or too long: 6, before 7, 8 and 9.
#[test]
fn lengths_come_first() {
    let set = SIX_BITS;
    assert_eq!(check(set), 0);
    let good = [
        set.secret_key_octets(),
        set.public_key_octets(),
        set.message_octets(),
        set.ciphertext_octets(),
        set.work_words(),
    ];
    assert_eq!(good, [2, 18, 1, 36, 24]);
    assert_eq!(numbers_of_bad_calls(set, good), [9, 7, 7, 7]);
    for (at, wanted) in [
        (0, [6, 6, 7, 6]),
        (1, [6, 6, 6, 7]),
        (2, [9, 7, 6, 6]),
        (3, [9, 7, 6, 6]),
        (4, [6, 6, 6, 6]),
    ] {
        for change in [-1, 1] {
            let mut sizes = good;
            sizes[at] = sizes[at].wrapping_add_signed(change);
            assert_eq!(numbers_of_bad_calls(set, sizes), wanted);
        }
    }
}

#[test]
fn order_of_the_later_numbers() {
    let set = SIX_BITS;
    // 8 before 9.
    let mut c = vec![0xEE; 36];
    let mut w = vec![7; 24];
    let number = encrypt(
        set,
        &[0xEE; 18],
        &[0x0E],
        &[],
        &mut c,
        &mut w,
        &mut 0,
        &mut 0,
    );
    assert_eq!((number, w), (8, vec![0; 24]));
    assert_eq!(c, [0xEE; 36]);
    // 8 before 14; the padding of either half is 7, and without it a zero top is 14.
    let mut m = vec![0xEE; 1];
    let mut w = vec![7; 24];
    assert_eq!(decrypt(set, &[0, 0], &c, &mut m, &mut w), 8);
    assert_eq!(decrypt(set, &[0, 0x40], &[0; 36], &mut m, &mut w), 7);
    assert_eq!(decrypt(set, &[0x40, 0], &[0; 36], &mut m, &mut w), 7);
    assert_eq!(decrypt(set, &[0x3F, 0x0F], &[0; 36], &mut m, &mut w), 14);
    assert_eq!(decrypt(set, &[0x0F, 0x3F], &[0; 36], &mut m, &mut w), 14);
    assert_eq!(m, [0xEE]);
    assert_eq!(decrypt(set, &[0x3F, 0x3F], &[0; 36], &mut m, &mut w), 0);
    assert_eq!(m, [0]);
}

/// A refused set leaves everything, whatever the lengths.
#[test]
fn refused_sets() {
    let bad = Set {
        mlen: 5,
        ..SIX_BITS
    };
    let mut w = vec![7; 3];
    assert_eq!(decrypt(bad, &[], &[], &mut [], &mut w), 5);
    assert_eq!(w, [7; 3]);
    let (mut at, mut s) = (1, 2);
    assert_eq!(limits(bad, &mut at, &mut s), 5);
    assert_eq!((at, s), (1, 2));
}

#[test]
fn additions() {
    let set = set(4, 1459, 2, 1, 1, 4);
    let mut words = vec![1458; 12];
    words[3] = 0;
    words[4] = 1;
    let mut a = vec![0; 24];
    assert_eq!(ciphertext_to_octets(set, &words, &mut a), 0);
    let mut sum = vec![0xAA; 24];
    assert_eq!(add(set, &a, &a, &mut sum), 0);
    let mut got = vec![0; 12];
    assert_eq!(ciphertext_from_octets(set, &sum, &mut got), 0);
    let wanted: Vec<u32> = words.iter().map(|x| 2 * x % 1459).collect();
    assert_eq!(got, wanted);

    // A coefficient of q in either one, and lengths.
    let mut bad = a.clone();
    bad[22..].copy_from_slice(&1459u16.to_le_bytes());
    let mut sum = vec![0xAA; 24];
    assert_eq!(add(set, &a, &bad, &mut sum), 8);
    assert_eq!(add(set, &bad, &a, &mut sum), 8);
    assert_eq!(add(set, &a[1..], &bad, &mut sum), 6);
    assert_eq!(add(set, &bad, &a[1..], &mut sum), 6);
    assert_eq!(add(set, &bad, &a, &mut sum[1..]), 6);
    assert_eq!(sum, [0xAA; 24]);
}

#[test]
fn conversions() {
    let mut prng = Prng::new(6);
    for set in SETS {
        let n = set.places();
        let words: Vec<u32> = (0..n)
            .map(|i| match i % 3 {
                0 => set.q - 1,
                1 => 0,
                _ => prng.below(u64::from(set.q)) as u32,
            })
            .collect();
        let mut octets = vec![0xAA; set.element_octets()];
        assert_eq!(element_to_octets(set, &words, &mut octets), 0);
        let mut back = vec![77; n];
        assert_eq!(element_from_octets(set, &octets, &mut back), 0);
        assert_eq!(back, words);

        let mut bad = words.clone();
        bad[n - 1] = set.q;
        let old = octets.clone();
        assert_eq!(element_to_octets(set, &bad, &mut octets), 8);
        assert_eq!(element_to_octets(set, &bad[1..], &mut octets), 6);
        assert_eq!(element_to_octets(set, &bad, &mut octets[1..]), 6);
        assert_eq!(octets, old);
        let qlen = set.qlen();
        let end = octets.len() - qlen;
        octets[end..].copy_from_slice(&set.q.to_le_bytes()[..qlen]);
        back.fill(77);
        assert_eq!(element_from_octets(set, &octets, &mut back), 8);
        assert_eq!(element_from_octets(set, &octets[1..], &mut back), 6);
        assert_eq!(element_from_octets(set, &octets, &mut back[1..]), 6);
        assert_eq!(back, vec![77; n]);

        let small: Vec<u32> = (0..n)
            .map(|_| prng.below(u64::from(set.l)) as u32)
            .collect();
        let mut packed = vec![0xAA; set.small_octets()];
        assert_eq!(small_to_octets(set, &small, &mut packed), 0);
        assert_eq!(small_from_octets(set, &packed, &mut back), 0);
        assert_eq!(back, small);
        let mut bad = small.clone();
        bad[n - 1] = set.l;
        let old = packed.clone();
        assert_eq!(small_to_octets(set, &bad, &mut packed), 8);
        assert_eq!(small_to_octets(set, &bad[1..], &mut packed), 6);
        assert_eq!(packed, old);
        let used_bits = n * set.b() as usize;
        for bit in used_bits..8 * packed.len() {
            let mut padded = packed.clone();
            padded[bit / 8] |= 1 << (bit % 8);
            let mut untouched = vec![77; n];
            assert_eq!(small_from_octets(set, &padded, &mut untouched), 7);
            assert_eq!(small_from_octets(set, &padded[1..], &mut untouched), 6);
            assert_eq!(untouched, vec![77; n]);
        }
    }
}

/// A secret key is its two halves, each with unused bits of its own; whole or halves alike.
#[test]
fn conversions_of_secret_keys() {
    let mut prng = Prng::new(7);
    for set in SETS {
        let (n, half) = (set.places(), set.small_octets());
        let words: Vec<u32> = (0..2 * n)
            .map(|i| match i % 3 {
                0 => set.l - 1,
                _ => prng.below(u64::from(set.l)) as u32,
            })
            .collect();
        let mut octets = vec![0xAA; set.secret_key_octets()];
        assert_eq!(secret_key_to_octets(set, &words, &mut octets), 0);
        let mut packed = vec![0xAA; half];
        for (k, u) in words.chunks(n).enumerate() {
            assert_eq!(small_to_octets(set, u, &mut packed), 0);
            assert_eq!(octets[k * half..][..half], packed);
        }
        let (u_x, u_y) = read_secret_key(set, &octets).expect("no padding");
        assert_eq!([u_x, u_y].concat(), words);
        let mut back = vec![77; 2 * n];
        assert_eq!(secret_key_from_octets(set, &octets, &mut back), 0);
        assert_eq!(back, words);

        // A word of l in either half; lengths off by one; nothing written.
        let old = octets.clone();
        for place in [0, n - 1, n, 2 * n - 1] {
            let mut bad = words.clone();
            bad[place] = set.l;
            assert_eq!(secret_key_to_octets(set, &bad, &mut octets), 8);
            assert_eq!(secret_key_to_octets(set, &bad[1..], &mut octets), 6);
            assert_eq!(secret_key_to_octets(set, &bad, &mut octets[1..]), 6);
        }
        assert_eq!(octets, old);

        // Each unused bit of either half.
        back.fill(77);
        for (k, bit) in (0..2).flat_map(|k| (n * set.b() as usize..8 * half).map(move |b| (k, b))) {
            let mut padded = octets.clone();
            padded[k * half + bit / 8] |= 1 << (bit % 8);
            assert_eq!(secret_key_from_octets(set, &padded, &mut back), 7);
            assert_eq!(secret_key_from_octets(set, &padded[1..], &mut back), 6);
            assert_eq!(secret_key_from_octets(set, &padded, &mut back[1..]), 6);
        }
        let refused = Set { l: 3, ..set };
        assert_eq!(secret_key_from_octets(refused, &octets, &mut back), 1);
        assert_eq!(secret_key_to_octets(refused, &words, &mut octets), 1);
        assert_eq!((back, octets), (vec![77; 2 * n], old));
    }
}
