//! What doesn't depend on the edition: every call but keygen, every number of keygen but 0 and 9, and what keys are
//! good for. Refusal 18 with every other.

use differential::compare::{
    add, decrypt, encrypt, is_zero, keygen, DecryptLengths, EncryptLengths, KeygenLengths,
};
use differential::inputs;
use differential::order;
use differential::run::Run;
use differential::sets::EDITIONS;
use differential::spoil::{spoil_set, WRONG_EDITIONS};
use reference::Set;

use crate::calls::{calls, Call, Given};
use crate::tried::{All, Tried};

/// A call with what these numbers refuse, in both editions and in one that isn't accepted.
fn with(run: &mut Run, all: &mut All, set: Set, call: Call, with: &[u32], turn: usize) {
    let mut given = Given::new(call, set, &mut run.prng);
    let which = given.spoil(run, call, set, with, turn);
    let of_set = order::OF_SET
        .into_iter()
        .filter(|number| with.contains(number));
    let spoiled = of_set.fold(set, |set, number| spoil_set(set, number, &mut run.prng));

    let answers = EDITIONS.map(|edition| given.make(run, call, spoiled.in_edition(edition)));
    let number = order::first(with);
    let right = answers[0].number == number && answers[0] == answers[1];
    run.expect(right, spoiled, "the same in both editions");

    let edition = WRONG_EDITIONS[turn % WRONG_EDITIONS.len()];
    let answer = given.make(run, call, spoiled.in_edition(edition));
    let right = answer.number == order::first(&[with, &[18]].concat());
    let words = "18 is after 5 and before 6";
    run.expect(right, spoiled.in_edition(edition), words);

    let (call, list) = (call.name(), with.to_vec());
    all.note(set, Tried::With { call, list });
    all.note(set, Tried::Edition { call, edition });
    if let Some(buffer) = which {
        all.note(set, Tried::Length { call, buffer });
    }
}

/// Every call, accepted.
pub fn accepted(run: &mut Run, all: &mut All, set: Set) {
    for (turn, call) in calls().into_iter().enumerate() {
        with(run, all, set, call, &[], turn);
    }
}

/// Every call with each refusal, each two of them, and all of its own.
pub fn refused(run: &mut Run, all: &mut All, set: Set) {
    for call in calls() {
        let own = call.refusals();
        let numbers = [&[1, 2, 3, 4, 5], own].concat();
        let mut lists = vec![own.to_vec()];
        for (at, &second) in numbers.iter().enumerate() {
            lists.push(vec![second]);
            lists.extend(numbers[..at].iter().map(|&first| vec![first, second]));
        }
        // 6 alone, once for each buffer and edition that isn't accepted.
        lists.extend(vec![vec![6]; if own.is_empty() { 0 } else { 8 }]);
        for (turn, list) in lists.iter().enumerate() {
            with(run, all, set, call, list, turn);
        }
    }
}

/// Keys made in one edition, used in one or the other: the zero test, two ciphertexts, their sum.
pub fn exchanged(run: &mut Run, all: &mut All, set: Set) {
    let random = inputs::keygen_random(set.in_edition(2), &mut run.prng);
    let messages = [(); 2].map(|()| inputs::message(set, &mut run.prng));
    let drawn = [(); 2].map(|()| inputs::encrypt_random(set, &mut run.prng).0);
    for made in EDITIONS {
        let keys = keygen(run, set.in_edition(made), &random, KeygenLengths::of(set));
        let (secret_key, public_key) = (&keys.secret_key, &keys.public_key);
        for used in EDITIONS {
            let other = set.in_edition(used);
            let zero = is_zero(run, other, secret_key, public_key, set.work_words());
            run.expect(zero == (0, 1), other, "made in another edition, a zero");
            let lengths = EncryptLengths::of(set);
            let mut encrypted = |set, at: usize| {
                encrypt(run, set, public_key, &messages[at], &drawn[at], lengths).ciphertext
            };
            let ciphertexts = [encrypted(set.in_edition(made), 0), encrypted(other, 1)];
            for (ciphertext, message) in ciphertexts.iter().zip(&messages) {
                let got = decrypt(run, other, secret_key, ciphertext, DecryptLengths::of(set));
                let right = got == (0, message.clone());
                run.expect(right, other, "made in another edition, decrypted");
            }
            let [a, b] = &ciphertexts;
            let (number, sum) = add(run, other, a, b, a.len());
            run.expect(number == 0, other, "ciphertexts of both editions are added");
            let sums = EDITIONS.map(|edition| {
                let lengths = DecryptLengths::of(set);
                decrypt(run, set.in_edition(edition), secret_key, &sum, lengths)
            });
            let right = sums[0].0 == sums[1].0 && (sums[0].0 != 0 || sums[0].1 == sums[1].1);
            run.expect(right, set, "a sum decrypts alike in both editions");
            all.note(set, Tried::Exchanged { made, used });
        }
    }
}
