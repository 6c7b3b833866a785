//! Noise elements whose top coefficients are zero, which encrypt keeps.

use differential::compare::{encrypt, EncryptLengths};
use differential::inputs::{self, of_full_degree, with_top};
use differential::run::Run;
use reference::monomials::count;
use reference::octets::{numbers_to_octets, unpack};
use reference::Set;

use crate::tried::{All, Others, Tried, OTHERS};

/// r is zero, so that the ciphertext is m + l * e.
fn encrypts(run: &mut Run, set: Set, noise: &[Vec<u8>]) {
    let public_key = inputs::public_key(set, &mut run.prng);
    let message = inputs::message(set, &mut run.prng);
    let r = vec![0; count(set.dr) * set.element_octets()];
    let random = [r, noise.concat()].concat();
    let unpacked = |element: &Vec<u8>| unpack(set.b(), element, set.places());
    let mut wanted: Vec<u32> = noise.iter().flat_map(unpacked).map(|x| set.l * x).collect();
    let constant = wanted.len() - set.places();
    let kept = (set.mlen / set.b()) as usize;
    for (place, x) in unpack(set.b(), &message, kept).into_iter().enumerate() {
        wanted[constant + place] += x;
    }
    let lengths = EncryptLengths::of(set);
    let made = encrypt(run, set, &public_key, &message, &random, lengths);
    let right = made.number == 0
        && made.used == random.len() as u64
        && made.ciphertext == numbers_to_octets(set.qlen(), &wanted);
    run.expect(right, set, "noise with zero top coefficients is kept");
}

/// The top coefficients of all elements are zero.
pub fn all_elements(run: &mut Run, all: &mut All, set: Set, others: Others) {
    let element = |_| {
        let element = match others {
            Others::Zero => vec![0; set.small_octets()],
            Others::Full => vec![0xFF; set.small_octets()],
            Others::Any => inputs::small_draw(set, &mut run.prng),
        };
        with_top(set, &element, 0)
    };
    let noise: Vec<Vec<u8>> = (0..count(set.d())).map(element).collect();
    encrypts(run, set, &noise);
    all.note(set, Tried::AllNoise(others));
}

/// The top coefficient of one element alone is zero, and those of all.
pub fn everything(run: &mut Run, all: &mut All, set: Set) {
    let element = |_| of_full_degree(set, &inputs::small_draw(set, &mut run.prng));
    let any: Vec<Vec<u8>> = (0..count(set.d())).map(element).collect();
    for which in 0..any.len() {
        let mut noise = any.clone();
        noise[which] = with_top(set, &noise[which], 0);
        encrypts(run, set, &noise);
        all.note(set, Tried::Noise(which));
    }
    for others in OTHERS {
        all_elements(run, all, set, others);
    }
}
