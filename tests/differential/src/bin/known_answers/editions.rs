//! Known answers for both editions (document 02, Q-7), the second supplier's first: the same octets and arguments in
//! edition 2, then in edition 1; then editions that aren't accepted.

use std::path::Path;

use differential::cases::{A, CIPHERTEXT, KEY_RANDOM, PUBLIC_KEY, RANDOM, SECRET_KEY, THROWN};
use differential::compare::{self, DecryptLengths, EncryptLengths, KeygenLengths, KINDS};
use differential::inputs::{self, of_full_degree, with_top};
use reference::monomials::count;
use reference::prng::Prng;
use reference::set::set;
use reference::Set;

use crate::{
    drawn, dropped, five_refusals, small_draws, three_elements, words_of, Answers, DRAWS, LARGE,
    PADDED, SEED, SMALL,
};

/// dX 1 and 2.
const EVERY_CALL: [Set; 2] = [PADDED, set(2, 32_769, 3, 2, 2, 2)];

/// Random octets for edition 2: with groups dropped before none of the draws that it throws away, before the first, the
/// last and every one; one octet short; those of edition 1 alone; octets that end after a dropped group before the last
/// draw, and in the middle of the group after it; an element dropped before u_x and two before u_y; any octets, cut
/// after the last one that is used.
fn randoms(file: &mut Answers, set: Set) -> Vec<Vec<u8>> {
    let n = set.places();
    let secret = [(); 2].map(|()| of_full_degree(set, &small_draws(file, set, 1)));
    let others = drawn(file, set, &vec![0; (count(set.dx) - 1) * n]);
    let key = [secret.concat(), others.clone()].concat();
    let [mut first, mut last] = [vec![0; n], vec![0; n]];
    (first[0], last[n - 1]) = (2, 2);
    let mut list = Vec::new();
    for before in [vec![0; n], first, last, vec![1; n]] {
        list.push([key.clone(), drawn(file, set, &before)].concat());
    }
    let exact = list[0].clone();
    list.extend([exact[..exact.len() - 1].to_vec(), key.clone()]);
    let ended = [&exact[..exact.len() - set.qlen()], &dropped(file, set, 1)].concat();
    let next = drawn(file, set, &[0]);
    list.extend([
        ended.clone(),
        [&ended[..], &next[..set.qlen() - 1]].concat(),
    ]);
    let zero = secret.clone().map(|element| with_top(set, &element, 0));
    let elements = [&zero[0], &secret[0], &zero[1], &zero[0], &secret[1]];
    let elements = elements.map(|element| &element[..]).concat();
    list.push([&elements[..], &exact[set.secret_key_octets()..]].concat());
    list.push(any_random(file, set));
    list
}

/// Any octets, cut after the last one that edition 2 uses.
fn any_random(file: &mut Answers, set: Set) -> Vec<u8> {
    let any = file.run.prng.octets(8 * set.public_key_octets() + 64);
    let lengths = KeygenLengths::of(set);
    let used = compare::keygen(&mut file.run, set.in_edition(2), &any, lengths).used;
    any[..used as usize].to_vec()
}

/// Each call once, accepted.
fn every_call(file: &mut Answers, set: Set) {
    file.limits(set);
    let random = inputs::keygen_random(set.in_edition(2), &mut file.run.prng);
    let keys = file.keygen(set, &random, KeygenLengths::of(set));
    file.is_zero(set, &keys.secret_key, &keys.public_key, set.work_words());
    let message = inputs::message(set, &mut file.run.prng);
    let (random, _) = inputs::encrypt_random(set, &mut file.run.prng);
    let lengths = EncryptLengths::of(set);
    let ciphertext = file
        .encrypt(set, &keys.public_key, &message, &random, lengths)
        .ciphertext;
    let other = inputs::ciphertext(set, &mut file.run.prng);
    file.add(set, &ciphertext, &other, ciphertext.len());
    file.decrypt(set, &keys.secret_key, &ciphertext, DecryptLengths::of(set));
    let [a, b, c] = three_elements(file, set);
    file.multiply_add(set, &a, &b, &c);
    for kind in KINDS {
        let words = words_of(file, kind, set);
        let octets = kind.octets_of(set, &words);
        file.octets_to_words(set, kind, &octets, words.len());
        file.words_to_octets(set, kind, &words, octets.len());
    }
}

/// The records of one edition.
fn in_edition(file: &mut Answers, edition: u32) {
    file.run.prng = Prng::new(SEED);
    let a = A.in_edition(edition);
    let longer = [&KEY_RANDOM[..], &THROWN].concat();
    for length in [16, 15, 12, 11, 10, 9] {
        file.keygen(a, &longer[..length], KeygenLengths::of(a));
    }
    for set in SMALL.into_iter().chain(DRAWS) {
        for random in randoms(file, set) {
            file.keygen(set.in_edition(edition), &random, KeygenLengths::of(set));
        }
    }
    for set in EVERY_CALL {
        every_call(file, set.in_edition(edition));
    }
    let [(_, large), _] = LARGE;
    let random = any_random(file, large);
    file.keygen(large.in_edition(edition), &random, KeygenLengths::of(large));
}

/// Each call with its case of document 01's, with the lengths that it asks for and with others.
fn refused(file: &mut Answers, set: Set) {
    file.limits(set);
    for by in [0, 1] {
        let lengths = KeygenLengths {
            work: 16 + by,
            ..KeygenLengths::of(A)
        };
        file.keygen(set, &KEY_RANDOM, lengths);
        file.is_zero(set, &SECRET_KEY, &PUBLIC_KEY, 16 + by);
        let (ciphertext, message) = (24, 1);
        let work = 16 + by;
        let lengths = EncryptLengths { ciphertext, work };
        file.encrypt(set, &PUBLIC_KEY, &[0x0E], &RANDOM, lengths);
        file.add(set, &CIPHERTEXT, &CIPHERTEXT, 24 + by);
        let lengths = DecryptLengths { message, work };
        file.decrypt(set, &SECRET_KEY, &CIPHERTEXT, lengths);
        file.multiply_add(set, &[1, 2], &[5, 7], &vec![0; 2 + by]);
        for kind in KINDS {
            let words = vec![1; kind.words(A)];
            let octets = kind.octets_of(A, &words);
            file.octets_to_words(set, kind, &octets, words.len() + by);
            file.words_to_octets(set, kind, &words, octets.len() + by);
        }
    }
}

pub fn editions(directory: &Path) {
    let mut file = Answers::new("editions");
    file.says_edition = true;
    for edition in [2, 1] {
        in_edition(&mut file, edition);
    }
    for edition in [0, 3, u32::MAX] {
        refused(&mut file, A.in_edition(edition));
    }
    // Next to those that are accepted, and 1 or 2 in fewer bits.
    for edition in [4, 257, 258, 65_537, 65_538, (1 << 31) + 1] {
        file.limits(A.in_edition(edition));
    }
    for set in five_refusals() {
        file.limits(set.in_edition(3));
    }
    file.write(directory);
}
