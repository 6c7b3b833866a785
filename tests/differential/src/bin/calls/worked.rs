//! The worked list of 01, cases 1 to 9, octet by octet, and how many groups and elements are dropped.

use differential::cases::{
    A, CIPHERTEXT, DROPPED_GROUP, KEY_RANDOM, PUBLIC_KEY, RANDOM, SECRET_KEY,
};
use differential::compare::{
    decrypt, encrypt, is_zero, keygen, DecryptLengths, EncryptLengths, KeygenLengths,
};
use differential::run::Run;
use reference::Set;

pub fn all(run: &mut Run) {
    case_1(run);
    cases_2_and_6(run);
    cases_3_to_6(run);
    case_7(run);
    case_8(run);
    case_9(run);
}

/// The number, and the octets used and the dropped groups.
fn try_encrypt(
    run: &mut Run,
    set: Set,
    key: &[u8],
    message: &[u8],
    random: &[u8],
) -> (u32, [u64; 2]) {
    let made = encrypt(run, set, key, message, random, EncryptLengths::of(set));
    if made.number == 0 && key == PUBLIC_KEY && set == A {
        run.expect(made.ciphertext == CIPHERTEXT, set, "cases 3 and 5");
    }
    (made.number, [made.used, made.dropped_groups])
}

/// (1 + 2t) * (5 + 7t) = 19 + 17t, as the constant of key times r.
fn case_1(run: &mut Run) {
    let key = [[0; 8].as_slice(), &[5, 0, 7, 0]].concat();
    let random = [[0; 8].as_slice(), &[1, 0, 2, 0], &[0; 6]].concat();
    let set = Set { mlen: 0, ..A };
    let made = encrypt(run, set, &key, &[], &random, EncryptLengths::of(set));
    let right = made.number == 0 && made.ciphertext[20..] == [19, 0, 17, 0];
    run.expect(right, set, "case 1");
}

fn cases_2_and_6(run: &mut Run) {
    let (secret, others) = KEY_RANDOM.split_at(2);
    let dropped = [secret, &DROPPED_GROUP, others].concat();
    for (random, wanted) in [(&KEY_RANDOM[..], [10, 0, 0]), (&dropped, [12, 1, 0])] {
        let keys = keygen(run, A, random, KeygenLengths::of(A));
        let told = [keys.used, keys.dropped_groups, keys.dropped_elements];
        let right = keys.number == 0 && told == wanted;
        run.expect(right, A, "case 2, and with 1459 dropped");
        let right = keys.secret_key == SECRET_KEY && keys.public_key == PUBLIC_KEY;
        run.expect(right, A, "case 2, and with 1459 dropped");
    }
    let (number, zero) = is_zero(run, A, &SECRET_KEY, &PUBLIC_KEY, A.work_words());
    run.expect(
        (number, zero) == (0, 1),
        A,
        "a made key has its secret as a zero",
    );
    let (number, zero) = is_zero(run, A, &[0x08, 0x04], &PUBLIC_KEY, A.work_words());
    run.expect((number, zero) == (0, 0), A, "another secret is no zero");

    let keys = keygen(run, A, &KEY_RANDOM[..9], KeygenLengths::of(A));
    run.expect(keys.number == 9, A, "case 6");
}

fn cases_3_to_6(run: &mut Run) {
    let answer = try_encrypt(run, A, &PUBLIC_KEY, &[0x0E], &RANDOM);
    run.expect(answer == (0, [18, 0]), A, "case 3");

    let (number, message) = decrypt(run, A, &SECRET_KEY, &CIPHERTEXT, DecryptLengths::of(A));
    run.expect(number == 0 && message == [0x0E], A, "case 4");
    let short = Set { mlen: 2, ..A };
    let lengths = DecryptLengths::of(short);
    let (number, _) = decrypt(run, short, &SECRET_KEY, &CIPHERTEXT, lengths);
    run.expect(number == 10, short, "case 4 with mlen 2");

    let mut random = RANDOM;
    random[1] = 0x08;
    let answer = try_encrypt(run, A, &PUBLIC_KEY, &[0x0E], &random);
    run.expect(answer == (0, [18, 0]), A, "case 5, 2049");
    let random = [&DROPPED_GROUP[..], &RANDOM].concat();
    let answer = try_encrypt(run, A, &PUBLIC_KEY, &[0x0E], &random);
    run.expect(answer == (0, [20, 1]), A, "case 5, 1459 dropped");
    let (two_pairs, others) = RANDOM.split_at(4);
    let random = [&DROPPED_GROUP, two_pairs, &DROPPED_GROUP, others].concat();
    let answer = try_encrypt(run, A, &PUBLIC_KEY, &[0x0E], &random);
    run.expect(answer == (0, [22, 2]), A, "case 5, 1459 dropped twice");

    let (number, _) = try_encrypt(run, A, &PUBLIC_KEY, &[0x0E], &RANDOM[..17]);
    run.expect(number == 9, A, "case 6");
}

fn case_7(run: &mut Run) {
    for place in 0..6 {
        for (coefficient, wanted) in [(1458u16, 0), (1459, 8), (2049, 8)] {
            let mut key = PUBLIC_KEY;
            key[2 * place..][..2].copy_from_slice(&coefficient.to_le_bytes());
            let (number, _) = try_encrypt(run, A, &key, &[0x0E], &RANDOM);
            run.expect(number == wanted, A, "case 7, encrypt");
            let (number, _) = is_zero(run, A, &SECRET_KEY, &key, A.work_words());
            run.expect(number == wanted, A, "case 7, is_zero");
        }
    }
    let (number, _) = try_encrypt(run, A, &PUBLIC_KEY, &[0x1E], &RANDOM);
    run.expect(number == 7, A, "case 7, message 1E");
}

/// Every small coefficient 3, key and r zero: w is 1455 at both places.
fn case_8(run: &mut Run) {
    let random = [[0; 12].as_slice(), &[0x0F; 6]].concat();
    let made = encrypt(run, A, &[0; 12], &[0x0F], &random, EncryptLengths::of(A));
    run.expect(made.number == 0 && made.used == 18, A, "case 8");
    let secret_key = [0x0F, 0x0F];
    let (number, zero) = is_zero(run, A, &secret_key, &[0; 12], A.work_words());
    run.expect((number, zero) == (0, 1), A, "case 8, zero test");
    let lengths = DecryptLengths::of(A);
    let (number, message) = decrypt(run, A, &secret_key, &made.ciphertext, lengths);
    run.expect(number == 0 && message == [0x0F], A, "case 8, decrypt");
    // Modulo 1455 it would decrypt as 0: that q is refused.
    let refused = Set { q: 1455, ..A };
    let (number, _) = decrypt(run, refused, &secret_key, &made.ciphertext, lengths);
    run.expect(number == 4, refused, "case 8, q 1455");
}

fn case_9(run: &mut Run) {
    let blank = Set { mlen: 0, ..A };
    let lengths = EncryptLengths::of(blank);
    let made = encrypt(run, blank, &PUBLIC_KEY, &[], &RANDOM, lengths);
    run.expect(
        made.number == 0 && made.used == 18,
        blank,
        "case 9, encrypt",
    );
    let lengths = DecryptLengths::of(blank);
    let (number, message) = decrypt(run, blank, &SECRET_KEY, &made.ciphertext, lengths);
    run.expect(number == 0 && message.is_empty(), blank, "case 9, decrypt");
    let odd = Set { mlen: 3, ..A };
    let (number, _) = try_encrypt(run, odd, &PUBLIC_KEY, &[0x0E], &RANDOM);
    run.expect(number == 5, odd, "case 9, mlen 3");
}
