//! Every refusal of each call at its boundary, alone, in pairs and several at once: the first that
//! applies is given. The kinds below are a call's own, beside the set's refusals.

use differential::compare::{
    decrypt, encrypt, is_zero, keygen, DecryptLengths, EncryptLengths, KeygenLengths,
};
use differential::inputs;
use differential::run::Run;
use differential::spoil::{spoil_padding, ways};
use reference::Set;

use crate::additions;

pub fn all(run: &mut Run, set: Set, more: usize) {
    keygens(run, set, more);
    zero_tests(run, set, more);
    encryptions(run, set, more);
    additions::refusals(run, set, more);
    decryptions(run, set, more);
}

/// 7 where a packed element or message with this many used bits has unused ones.
fn padding(used_bits: usize) -> u32 {
    match used_bits % 8 {
        0 => 0,
        _ => 7,
    }
}

/// The unused bits of an element.
fn element_padding(set: Set) -> u32 {
    padding(set.places() * set.b() as usize)
}

fn answers(run: &Run, set: Set, number: u32, wanted: u32) {
    run.expect(number == wanted, set, "the first refusal that applies");
}

/// 0 to 2: secret key, public key, work; 3: random octets.
fn keygens(run: &mut Run, set: Set, more: usize) {
    let random = inputs::keygen_random(set, &mut run.prng);
    for way in ways(4, more, &mut run.prng) {
        let prng = &mut run.prng;
        let right = KeygenLengths::of(set);
        let lengths = KeygenLengths {
            secret_key: way.length(0, right.secret_key, prng),
            public_key: way.length(1, right.public_key, prng),
            work: way.length(2, right.work, prng),
        };
        let mut random = random.clone();
        way.random(3, &mut random, prng);
        let wrong = way.set(set, prng);
        let made = keygen(run, wrong, &random, lengths);
        let wanted = way.refusal(&[6, 6, 6, 9]);
        answers(run, wrong, made.number, wanted);
    }
}

/// 0 to 2: secret key, public key, work; 3 and 4: padding of each half; 5: a coefficient; 6 and 7: the
/// top coefficient of each half.
fn zero_tests(run: &mut Run, set: Set, more: usize) {
    let secret = inputs::secret_key(set, &mut run.prng);
    let public = inputs::public_key(set, &mut run.prng);
    let pad = element_padding(set);
    for way in ways(8, more, &mut run.prng) {
        let prng = &mut run.prng;
        let (mut secret_key, mut public_key) = (secret.clone(), public.clone());
        way.padding(3, set, &mut secret_key, prng);
        way.top(6, set, &mut secret_key);
        way.coefficient(5, set, &mut public_key, prng);
        way.input(0, &mut secret_key, prng);
        way.input(1, &mut public_key, prng);
        let work = way.length(2, set.work_words(), prng);
        let wrong = way.set(set, prng);
        let (number, _) = is_zero(run, wrong, &secret_key, &public_key, work);
        let wanted = way.refusal(&[6, 6, 6, pad, pad, 8, 14, 14]);
        answers(run, wrong, number, wanted);
    }
}

/// 0 to 3: public key, message, ciphertext, work; 4: padding of the message; 5: a coefficient; 6:
/// random octets.
fn encryptions(run: &mut Run, set: Set, more: usize) {
    let public = inputs::public_key(set, &mut run.prng);
    let m = inputs::message(set, &mut run.prng);
    let (drawn, _) = inputs::encrypt_random(set, &mut run.prng);
    for way in ways(7, more, &mut run.prng) {
        let prng = &mut run.prng;
        let (mut public_key, mut message) = (public.clone(), m.clone());
        if way.has(4) {
            spoil_padding(&mut message, set.mlen as usize, prng);
        }
        way.coefficient(5, set, &mut public_key, prng);
        let mut random = drawn.clone();
        way.random(6, &mut random, prng);
        way.input(0, &mut public_key, prng);
        way.input(1, &mut message, prng);
        let right = EncryptLengths::of(set);
        let lengths = EncryptLengths {
            ciphertext: way.length(2, right.ciphertext, prng),
            work: way.length(3, right.work, prng),
        };
        let wrong = way.set(set, prng);
        let made = encrypt(run, wrong, &public_key, &message, &random, lengths);
        let pad = padding(set.mlen as usize);
        let wanted = way.refusal(&[6, 6, 6, 6, pad, 8, 9]);
        answers(run, wrong, made.number, wanted);
    }
}

/// 0 to 3: secret key, ciphertext, message, work; 4 and 5: padding of each half; 6: a coefficient; 7:
/// a message coefficient of 1, which is 10 past mlen; 8 and 9: the top coefficient of each half.
fn decryptions(run: &mut Run, set: Set, more: usize) {
    let secret = inputs::secret_key(set, &mut run.prng);
    let constant = set.ciphertext_octets() - set.element_octets();
    let pad = element_padding(set);
    for way in ways(10, more, &mut run.prng) {
        let prng = &mut run.prng;
        let mut secret_key = secret.clone();
        let mut ciphertext = vec![0; set.ciphertext_octets()];
        // 1 at one place of the constant.
        let place = prng.below(u64::from(set.n)) as u32;
        let tail = if place * set.b() < set.mlen { 0 } else { 10 };
        if way.has(7) {
            ciphertext[constant + place as usize * set.qlen()] = 1;
        }
        way.padding(4, set, &mut secret_key, prng);
        way.top(8, set, &mut secret_key);
        way.coefficient(6, set, &mut ciphertext, prng);
        way.input(0, &mut secret_key, prng);
        way.input(1, &mut ciphertext, prng);
        let right = DecryptLengths::of(set);
        let lengths = DecryptLengths {
            message: way.length(2, right.message, prng),
            work: way.length(3, right.work, prng),
        };
        let wrong = way.set(set, prng);
        let (number, _) = decrypt(run, wrong, &secret_key, &ciphertext, lengths);
        let wanted = way.refusal(&[6, 6, 6, 6, pad, pad, 8, tail, 14, 14]);
        answers(run, wrong, number, wanted);
    }
}
