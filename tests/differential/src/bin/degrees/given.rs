//! Secret keys that decrypt and is_zero are given, with zero top coefficients in one element, the other, both or none,
//! and with other refusals: the first that applies is given.

use differential::compare::{decrypt, is_zero, DecryptLengths};
use differential::inputs::{self, of_full_degree, with_top};
use differential::order;
use differential::run::Run;
use differential::spoil::{spoil_coefficient, spoil_input, spoil_length, spoil_padding};
use reference::octets::pack;
use reference::Set;

use crate::tried::{All, Call, Given, Others, Tried, OTHERS};

/// What decrypt or is_zero is lent: a secret key, a ciphertext or public key, and the lengths of message and work.
struct Lent {
    secret_key: Vec<u8>,
    polynomial: Vec<u8>,
    message: usize,
    work: usize,
}

fn element(run: &mut Run, set: Set, zero: bool, others: Others) -> Vec<u8> {
    let filled = |x| pack(set.b(), &vec![x; set.places()], set.small_octets());
    let element = match others {
        Others::Zero => filled(0),
        Others::Full => filled(set.l - 1),
        Others::Any => inputs::small(set, &mut run.prng),
    };
    match zero {
        true => with_top(set, &element, 0),
        false => of_full_degree(set, &element),
    }
}

impl Lent {
    /// A polynomial of zeros: its value is 0 everywhere.
    fn new(run: &mut Run, set: Set, given: &Given) -> Self {
        let length = match given.call {
            Call::Decrypt => set.ciphertext_octets(),
            Call::IsZero => set.public_key_octets(),
        };
        let element = |zero| element(run, set, zero, given.others);
        Lent {
            secret_key: given.zero.map(element).concat(),
            polynomial: vec![0; length],
            message: set.message_octets(),
            work: set.work_words(),
        }
    }

    /// Makes a buffer's length wrong: of the secret key, the polynomial, the work words or the message.
    fn wrong_length(&mut self, run: &mut Run, buffer: usize) {
        let prng = &mut run.prng;
        match buffer {
            0 => spoil_input(&mut self.secret_key, prng),
            1 => spoil_input(&mut self.polynomial, prng),
            2 => self.work = spoil_length(self.work, prng),
            _ => self.message = spoil_length(self.message, prng),
        }
    }

    /// Adds what is refused by this number, but for 6.
    fn spoil(&mut self, run: &mut Run, set: Set, number: u32) {
        let half = set.small_octets();
        match number {
            7 => {
                let which = run.prng.below(2) as usize;
                let packed = &mut self.secret_key[which * half..][..half];
                spoil_padding(packed, set.places() * set.b() as usize, &mut run.prng);
            }
            8 => spoil_coefficient(set, &mut self.polynomial, &mut run.prng),
            10 => {
                // The constant's last place, which is past mlen.
                let place = self.polynomial.len() - set.qlen();
                self.polynomial[place] = 1;
            }
            _ => unreachable!("7, 8 or 10"),
        }
    }

    fn answer(&self, run: &mut Run, set: Set, call: Call) -> u32 {
        let (secret_key, polynomial) = (&self.secret_key, &self.polynomial);
        let lengths = DecryptLengths {
            message: self.message,
            work: self.work,
        };
        match call {
            Call::Decrypt => decrypt(run, set, secret_key, polynomial, lengths).0,
            Call::IsZero => is_zero(run, set, secret_key, polynomial, self.work).0,
        }
    }
}

/// One call; where a length is wrong, it is this buffer's.
fn one(run: &mut Run, all: &mut All, set: Set, given: Given, buffer: usize) {
    let (call, zero) = (given.call, given.zero);
    // At least the last coefficient of a message is past mlen.
    let coefficients = run.prng.below(u64::from(set.n)) as u32;
    let set = Set {
        mlen: coefficients * set.b(),
        ..set
    };
    let mut lent = Lent::new(run, set, &given);
    // From the last to the first, so that a coefficient that is wrong stays so.
    for &number in given.with.iter().rev().filter(|&&number| number != 6) {
        lent.spoil(run, set, number);
    }
    if given.with.contains(&6) {
        lent.wrong_length(run, buffer);
        all.note(set, Tried::GivenLength { call, zero, buffer });
    }
    let mut applying = given.with.clone();
    applying.extend(zero.contains(&true).then_some(14));
    let number = lent.answer(run, set, call);
    let right = number == order::first(&applying);
    run.expect(right, set, "the first refusal that applies");
    all.note(set, Tried::Given(given));
}

/// Each subset of these numbers.
fn subsets(numbers: &[u32]) -> Vec<Vec<u32>> {
    let chosen = |mask: u32| {
        let kept = (0..).zip(numbers).filter(|(at, _)| mask >> at & 1 == 1);
        kept.map(|(_, &number)| number).collect()
    };
    (0..1 << numbers.len()).map(chosen).collect()
}

/// The refusals of a call that are tried together with 14.
fn refusals(call: Call, set: Set) -> Vec<u32> {
    let padding = !(set.n * set.b()).is_multiple_of(8);
    let fits = |number: &u32| match number {
        7 => padding,
        10 => call == Call::Decrypt,
        _ => true,
    };
    [6, 7, 8, 10].into_iter().filter(fits).collect()
}

/// How many buffers a call is lent whose length can be wrong.
fn buffers(call: Call) -> usize {
    match call {
        Call::Decrypt => 4,
        Call::IsZero => 3,
    }
}

/// Secret keys with zero top coefficients of these elements, with every set of other refusals.
fn with_others(run: &mut Run, all: &mut All, set: Set, zero: [bool; 2]) {
    for call in [Call::Decrypt, Call::IsZero] {
        let mut turn = 0;
        for others in OTHERS {
            for with in subsets(&refusals(call, set)) {
                turn += usize::from(with.contains(&6));
                let given = Given {
                    call,
                    zero,
                    others,
                    with,
                };
                one(run, all, set, given, turn % buffers(call));
            }
        }
    }
}

/// Secret keys with a zero top coefficient.
pub fn refused(run: &mut Run, all: &mut All, set: Set) {
    for zero in [[true, false], [false, true], [true, true]] {
        with_others(run, all, set, zero);
    }
}

/// Secret keys without one too.
pub fn everything(run: &mut Run, all: &mut All, set: Set) {
    with_others(run, all, set, [false, false]);
    refused(run, all, set);
}
