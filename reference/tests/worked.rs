//! The worked list of document 01, cases 1 to 11, with the dropped groups and elements of document
//! 02's, and sums of two coefficients at the limits of their reduction.

use reference::octets;
use reference::ring::{self, Polynomial};
use reference::scheme::{read_polynomial, read_secret_key};
use reference::set::{bound, set};
use reference::*;

const A: Set = set(4, 1459, 2, 1, 1, 4);

fn hex(text: &str) -> Vec<u8> {
    text.split_whitespace()
        .map(|pair| u8::from_str_radix(pair, 16).expect("hexadecimal"))
        .collect()
}

fn key_random() -> Vec<u8> {
    hex("09 04 05 00 07 00 64 00 01 00")
}

fn secret_key() -> Vec<u8> {
    hex("09 04")
}

fn public_key() -> Vec<u8> {
    hex("05 00 07 00 64 00 01 00 9F 05 3E 05")
}

fn encrypt_random() -> Vec<u8> {
    hex("01 00 00 00 00 00 00 00 00 00 01 00 01 00 08 0F 00 09")
}

fn ciphertext() -> Vec<u8> {
    hex("09 00 07 00 64 00 01 00 00 00 08 00 B2 05 4F 05 01 00 64 00 44 05 AA 05")
}

/// Octets used and groups dropped, as they are before a call.
const OLD: [u64; 2] = [99, 77];

/// The same for keygen, with the elements dropped.
const OLD_OF_KEYGEN: [u64; 3] = [99, 77, 55];

/// Makes keys into marked buffers: the number, both keys, the work words, and the octets used with
/// the groups and the elements dropped.
fn try_keygen(random: &[u8]) -> (u32, Vec<u8>, Vec<u8>, Vec<u32>, [u64; 3]) {
    let (mut sk, mut pk) = (vec![0xAA; 2], vec![0xBB; 12]);
    let mut work = vec![7; 16];
    let [mut used, mut groups, mut elements] = OLD_OF_KEYGEN;
    let number = keygen(
        A,
        random,
        &mut sk,
        &mut pk,
        &mut work,
        &mut used,
        &mut groups,
        &mut elements,
    );
    (number, sk, pk, work, [used, groups, elements])
}

/// Encrypts into a marked buffer: the number, the ciphertext, the work words, and the octets used
/// with the groups dropped.
fn try_encrypt(
    set: Set,
    public_key: &[u8],
    message: &[u8],
    random: &[u8],
) -> (u32, Vec<u8>, Vec<u32>, [u64; 2]) {
    let mut c = vec![0xAA; 24];
    let mut work = vec![7; 16];
    let [mut used, mut dropped] = OLD;
    let number = encrypt(
        set,
        public_key,
        message,
        random,
        &mut c,
        &mut work,
        &mut used,
        &mut dropped,
    );
    (number, c, work, [used, dropped])
}

#[test]
fn case_1() {
    assert_eq!(ring::product(A.q, &[1, 2], &[5, 7]), [19, 17]);
}

#[test]
fn case_2() {
    let got = try_keygen(&key_random());
    let (sk, pk) = (secret_key(), public_key());
    assert_eq!(got, (0, sk.clone(), pk.clone(), vec![0; 16], [10, 0, 0]));

    // 1459 after the secret is dropped: the same keys.
    let random = hex("09 04 B3 05 05 00 07 00 64 00 01 00");
    let got = try_keygen(&random);
    assert_eq!(got, (0, sk.clone(), pk.clone(), vec![0; 16], [12, 1, 0]));

    let mut zero = 99;
    let mut work = [7; 16];
    assert_eq!(is_zero(A, &sk, &pk, &mut work, &mut zero), 0);
    assert_eq!((zero, work), (1, [0; 16]));
    assert_eq!(is_zero(A, &[0x08, 0x04], &pk, &mut work, &mut zero), 0);
    assert_eq!(zero, 0);
}

#[test]
fn case_3() {
    let got = try_encrypt(A, &public_key(), &[0x0E], &encrypt_random());
    assert_eq!(got, (0, ciphertext(), vec![0; 16], [18, 0]));
    // Octets after the last draw aren't examined.
    let longer = [encrypt_random(), vec![0xFF; 5]].concat();
    let got = try_encrypt(A, &public_key(), &[0x0E], &longer);
    assert_eq!(got, (0, ciphertext(), vec![0; 16], [18, 0]));
}

#[test]
fn case_4() {
    let (u_x, u_y) = read_secret_key(A, &secret_key()).expect("no padding");
    let c = read_polynomial(A, A.d(), &ciphertext()).expect("below q");
    assert_eq!(ring::value(A.q, &c, &u_x, &u_y), [62, 71]);

    let (mut message, mut work) = ([0xAA], [7; 16]);
    let number = decrypt(A, &secret_key(), &ciphertext(), &mut message, &mut work);
    assert_eq!((number, message, work), (0, [0x0E], [0; 16]));

    let short = Set { mlen: 2, ..A };
    let (mut message, mut work) = ([0xAA], [7; 16]);
    let number = decrypt(short, &secret_key(), &ciphertext(), &mut message, &mut work);
    assert_eq!((number, message, work), (10, [0xAA], [0; 16]));
}

#[test]
fn case_5() {
    let mut random = encrypt_random();
    random[1] = 0x08;
    let got = try_encrypt(A, &public_key(), &[0x0E], &random);
    assert_eq!(got, (0, ciphertext(), vec![0; 16], [18, 0]));

    let random = [hex("B3 05"), encrypt_random()].concat();
    let got = try_encrypt(A, &public_key(), &[0x0E], &random);
    assert_eq!(got, (0, ciphertext(), vec![0; 16], [20, 1]));

    // Again before the third pair.
    let random = hex("B3 05 01 00 00 00 B3 05 00 00 00 00 00 00 01 00 01 00 08 0F 00 09");
    let got = try_encrypt(A, &public_key(), &[0x0E], &random);
    assert_eq!(got, (0, ciphertext(), vec![0; 16], [22, 2]));
}

#[test]
fn case_6() {
    let random = encrypt_random();
    let got = try_encrypt(A, &public_key(), &[0x0E], &random[..17]);
    assert_eq!(got, (9, vec![0xAA; 24], vec![0; 16], OLD));

    let got = try_keygen(&key_random()[..9]);
    let wanted = (9, vec![0xAA; 2], vec![0xBB; 12], vec![0; 16], OLD_OF_KEYGEN);
    assert_eq!(got, wanted);
}

/// Case 6 with dropped groups: the numbers hold their old values, also where the octets end right
/// after a dropped group.
#[test]
fn case_6_after_dropped_groups() {
    for text in [
        "B3 05",
        "B3 05 B3 05",
        "B3 05 01",
        "01 00 00 00 00 00 00 00 00 00 B3 05",
        "B3 05 01 00 00 00 00 00 00 00 00 00 01 00 01 00 08 0F 00",
    ] {
        let got = try_encrypt(A, &public_key(), &[0x0E], &hex(text));
        assert_eq!(got, (9, vec![0xAA; 24], vec![0; 16], OLD), "{text}");
    }
    for text in [
        "09 04 B3 05",
        "09 04 B3 05 05 00 07 00 64 00 01",
        "09 04 05 00 07 00 64 00 B3 05",
    ] {
        let got = try_keygen(&hex(text));
        let wanted = (9, vec![0xAA; 2], vec![0xBB; 12], vec![0; 16], OLD_OF_KEYGEN);
        assert_eq!(got, wanted, "{text}");
    }
}

#[test]
fn case_7() {
    for (coefficient, wanted) in [(1458u16, 0), (1459, 8)] {
        for place in 0..6 {
            let mut key = public_key();
            key[2 * place..2 * place + 2].copy_from_slice(&coefficient.to_le_bytes());
            let (number, c, work, report) = try_encrypt(A, &key, &[0x0E], &encrypt_random());
            assert_eq!((number, work), (wanted, vec![0; 16]));
            if wanted == 8 {
                assert_eq!((c, report), (vec![0xAA; 24], OLD));
            }

            let (mut work, mut zero) = ([7; 16], 99);
            let number = is_zero(A, &secret_key(), &key, &mut work, &mut zero);
            assert_eq!((number, work), (wanted, [0; 16]));
            assert_eq!(zero == 99, wanted == 8);

            let mut words = [77; 6];
            assert_eq!(public_key_from_octets(A, &key, &mut words), wanted);
            if wanted == 0 {
                assert_eq!(words[place], 1458);
            } else {
                assert_eq!(words, [77; 6]);
            }
        }
    }

    let got = try_encrypt(A, &public_key(), &[0x1E], &encrypt_random());
    assert_eq!(got, (7, vec![0xAA; 24], vec![0; 16], OLD));
}

#[test]
fn case_8() {
    let random = [vec![0; 12], vec![0x0F; 6]].concat();
    let (number, c, _, report) = try_encrypt(A, &[0; 12], &[0x0F], &random);
    assert_eq!((number, report), (0, [18, 0]));

    let mut zero = 99;
    let number = is_zero(A, &[0x0F, 0x0F], &[0; 12], &mut [7; 16], &mut zero);
    assert_eq!((number, zero), (0, 1));

    let w = {
        let c = read_polynomial(A, A.d(), &c).expect("below q");
        ring::value(A.q, &c, &[3, 3], &[3, 3])
    };
    assert_eq!(w, [1455, 1455]);
    let mut message = [0xAA];
    let number = decrypt(A, &[0x0F, 0x0F], &c, &mut message, &mut [7; 16]);
    assert_eq!((number, message), (0, [0x0F]));

    // Modulo 1455 it would decrypt as 0, so 1455 as q is refused.
    let c = Polynomial {
        degree: 2,
        elements: [vec![vec![12, 12]; 5], vec![vec![15, 15]]].concat(),
    };
    let w = ring::value(1455, &c, &[3, 3], &[3, 3]);
    assert_eq!(w, [0, 0]);
    assert_eq!(check(Set { q: 1455, ..A }), 4);
}

#[test]
fn case_9() {
    let empty = Set { mlen: 0, ..A };
    let (number, c, _, report) = try_encrypt(empty, &public_key(), &[], &encrypt_random());
    assert_eq!((number, report), (0, [18, 0]));
    let mut work = [7; 16];
    let number = decrypt(empty, &secret_key(), &c, &mut [], &mut work);
    assert_eq!((number, work), (0, [0; 16]));

    assert_eq!(check(Set { mlen: 3, ..A }), 5);
}

#[test]
fn case_10() {
    assert_eq!(check(set(2, 100_679_684, 4096, 1, 1, 0)), 0);
    assert_eq!(check(set(2, 100_679_683, 4096, 1, 1, 0)), 4);
    assert_eq!(check(set(16, 2_147_483_647, 4096, 2, 2, 0)), 4);
    // The bound passes 64 bits and is still exact.
    let top = 5 * (1u128 << 48) * 759_375;
    let lower = 4 * (1u128 << 36) * 50_625 + 3 * (1 << 24) * 3375 + 2 * 4096 * 225 + 15;
    assert_eq!(bound(16, 4096, 4), 15 + 16 * (top + lower));
    assert!(bound(16, 4096, 4) > u128::from(u64::MAX));
}

#[test]
fn case_11() {
    assert_eq!(bound(4, 1201, 2), 467_424_411);
    assert_eq!(467_424_411 % 3, 0);
    assert_eq!(check(set(4, 467_424_411, 1201, 1, 1, 2402)), 4);
    assert_eq!(check(set(4, 467_424_412, 1201, 1, 1, 2402)), 0);
}

/// q, two coefficients and their sum modulo q: sums of q - 1, q, q + 1 and 2q - 2.
const SUMS: [[u32; 4]; 36] = [
    [36, 0, 35, 35],
    [36, 17, 18, 35],
    [36, 1, 35, 0],
    [36, 18, 18, 0],
    [36, 2, 35, 1],
    [36, 18, 19, 1],
    [36, 35, 35, 34],
    [65_535, 0, 65_534, 65_534],
    [65_535, 32_767, 32_767, 65_534],
    [65_535, 1, 65_534, 0],
    [65_535, 32_767, 32_768, 0],
    [65_535, 2, 65_534, 1],
    [65_535, 32_768, 32_768, 1],
    [65_535, 65_534, 65_534, 65_533],
    [65_536, 0, 65_535, 65_535],
    [65_536, 32_767, 32_768, 65_535],
    [65_536, 1, 65_535, 0],
    [65_536, 32_768, 32_768, 0],
    [65_536, 2, 65_535, 1],
    [65_536, 32_768, 32_769, 1],
    [65_536, 65_535, 65_535, 65_534],
    [16_777_216, 0, 16_777_215, 16_777_215],
    [16_777_216, 8_388_607, 8_388_608, 16_777_215],
    [16_777_216, 1, 16_777_215, 0],
    [16_777_216, 8_388_608, 8_388_608, 0],
    [16_777_216, 2, 16_777_215, 1],
    [16_777_216, 8_388_608, 8_388_609, 1],
    [16_777_216, 16_777_215, 16_777_215, 16_777_214],
    [2_147_483_647, 0, 2_147_483_646, 2_147_483_646],
    [2_147_483_647, 1_073_741_823, 1_073_741_823, 2_147_483_646],
    [2_147_483_647, 1, 2_147_483_646, 0],
    [2_147_483_647, 1_073_741_823, 1_073_741_824, 0],
    [2_147_483_647, 2, 2_147_483_646, 1],
    [2_147_483_647, 1_073_741_824, 1_073_741_824, 1],
    [2_147_483_647, 1_000_000_000, 1_147_483_648, 1],
    [2_147_483_647, 2_147_483_646, 2_147_483_646, 2_147_483_645],
];

#[test]
fn sums_of_two_coefficients() {
    for [q, a, b, wanted] in SUMS {
        let set = set(2, q, 2, 1, 1, 2);
        let filled = |x| octets::numbers_to_octets(set.qlen(), &[x; 12]);
        for (a, b) in [(a, b), (b, a)] {
            let mut sum = vec![0xAA; set.ciphertext_octets()];
            assert_eq!(add(set, &filled(a), &filled(b), &mut sum), 0);
            assert_eq!(sum, filled(wanted), "{a} + {b} modulo {q}");
        }
    }
}

#[test]
fn conversions_of_the_worked_octets() {
    let mut words = [0; 6];
    assert_eq!(public_key_from_octets(A, &public_key(), &mut words), 0);
    assert_eq!(words, [5, 7, 100, 1, 1439, 1342]);
    let mut back = [0; 12];
    assert_eq!(public_key_to_octets(A, &words, &mut back), 0);
    assert_eq!(back[..], public_key());

    let mut words = [0; 12];
    assert_eq!(ciphertext_from_octets(A, &ciphertext(), &mut words), 0);
    let mut back = [0; 24];
    assert_eq!(ciphertext_to_octets(A, &words, &mut back), 0);
    assert_eq!(back[..], ciphertext());

    // 09 is 1 + 2t.
    let mut words = [0; 2];
    assert_eq!(small_from_octets(A, &[0x09], &mut words), 0);
    assert_eq!(words, [1, 2]);
    assert_eq!(octets::pack(2, &words, 1), [0x09]);

    // 09 04 is 1 + 2t, then t; the padding of either half is refusal 7.
    let mut words = [0; 4];
    assert_eq!(secret_key_from_octets(A, &secret_key(), &mut words), 0);
    assert_eq!(words, [1, 2, 0, 1]);
    let mut back = [0; 2];
    assert_eq!(secret_key_to_octets(A, &words, &mut back), 0);
    assert_eq!(back[..], secret_key());
    assert_eq!(secret_key_from_octets(A, &[0x19, 0x04], &mut words), 7);
    assert_eq!(secret_key_from_octets(A, &[0x09, 0x84], &mut words), 7);
    assert_eq!(secret_key_to_octets(A, &[1, 2, 0, 4], &mut back), 8);
}
