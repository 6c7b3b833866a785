//! Any of the nineteen calls, with what it is given.

use differential::compare::{self, DecryptLengths, EncryptLengths, KeygenLengths, Kind, KINDS};
use differential::inputs::{self, with_top};
use differential::run::Run;
use differential::spoil::{
    spoil_coefficient, spoil_input, spoil_length, spoil_padding, spoiled_number,
};
use reference::octets::numbers_to_octets;
use reference::prng::Prng;
use reference::Set;

#[derive(Clone, Copy, PartialEq, Eq)]
pub enum Call {
    Check,
    Limits,
    Lengths,
    Keygen,
    IsZero,
    Encrypt,
    Add,
    Decrypt,
    MultiplyAdd,
    From(Kind),
    To(Kind),
}

/// Every call.
pub fn calls() -> Vec<Call> {
    let mut list = vec![
        Call::Check,
        Call::Limits,
        Call::Lengths,
        Call::Keygen,
        Call::IsZero,
        Call::Encrypt,
        Call::Add,
        Call::Decrypt,
        Call::MultiplyAdd,
    ];
    list.extend(KINDS.map(Call::From));
    list.extend(KINDS.map(Call::To));
    list
}

impl Call {
    pub fn name(self) -> &'static str {
        match self {
            Call::Check => "check",
            Call::Limits => "limits",
            Call::Lengths => "lengths",
            Call::Keygen => "keygen",
            Call::IsZero => "is_zero",
            Call::Encrypt => "encrypt",
            Call::Add => "add",
            Call::Decrypt => "decrypt",
            Call::MultiplyAdd => "multiply_add",
            Call::From(kind) => kind.from_name(),
            Call::To(kind) => kind.to_name(),
        }
    }

    /// The refusals of what it is given beside the set, in their order.
    pub fn refusals(self) -> &'static [u32] {
        match self {
            Call::Check | Call::Limits | Call::Lengths => &[],
            Call::Keygen => &[6, 9],
            Call::IsZero => &[6, 7, 8, 14],
            Call::Encrypt => &[6, 7, 8, 9],
            Call::Decrypt => &[6, 7, 8, 14, 10],
            Call::From(kind) if kind.is_packed() => &[6, 7],
            Call::Add | Call::MultiplyAdd | Call::From(_) | Call::To(_) => &[6, 8],
        }
    }

    /// Which of the octets that it reads are random.
    fn random(self) -> Option<usize> {
        match self {
            Call::Keygen => Some(0),
            Call::Encrypt => Some(2),
            _ => None,
        }
    }

    fn has_work(self) -> bool {
        matches!(
            self,
            Call::Keygen | Call::IsZero | Call::Encrypt | Call::Decrypt
        )
    }
}

/// What a call is given: the octets and words that it reads, and the lengths of what it writes and of the work words.
pub struct Given {
    octets: Vec<Vec<u8>>,
    words: Vec<Vec<u32>>,
    written: Vec<usize>,
    work: usize,
}

/// What a call gave: its number and, where that is 0, everything that it wrote; of keygen's numbers the dropped
/// elements alone.
#[derive(PartialEq, Eq)]
pub struct Answer {
    pub number: u32,
    written: Vec<u64>,
}

impl Answer {
    fn new<T: Into<u64>>(number: u32, written: impl IntoIterator<Item = T>) -> Self {
        let written = match number {
            0 => written.into_iter().map(Into::into).collect(),
            _ => Vec::new(),
        };
        Answer { number, written }
    }
}

/// Octets of a ciphertext whose value is the message, whatever the secret key is.
fn constant_ciphertext(set: Set, prng: &mut Prng) -> Vec<u8> {
    let kept = (set.mlen / set.b()) as usize;
    let mut words = vec![0; set.ciphertext_words() - set.places()];
    words.extend(inputs::below(set.l, kept, prng));
    words.resize(set.ciphertext_words(), 0);
    numbers_to_octets(set.qlen(), &words)
}

/// The octets that a call reads, those of keygen enough for edition 2.
fn octets(call: Call, set: Set, prng: &mut Prng) -> Vec<Vec<u8>> {
    match call {
        Call::Keygen => vec![inputs::keygen_random(set.in_edition(2), prng)],
        Call::IsZero => vec![inputs::secret_key(set, prng), inputs::public_key(set, prng)],
        Call::Encrypt => {
            let (key, message) = (inputs::public_key(set, prng), inputs::message(set, prng));
            vec![key, message, inputs::encrypt_random(set, prng).0]
        }
        Call::Add => vec![inputs::ciphertext(set, prng), inputs::ciphertext(set, prng)],
        Call::Decrypt => vec![
            inputs::secret_key(set, prng),
            constant_ciphertext(set, prng),
        ],
        Call::From(kind) => {
            let words = inputs::below(kind.limit(set), kind.words(set), prng);
            vec![kind.octets_of(set, &words)]
        }
        _ => Vec::new(),
    }
}

/// The words that a call reads.
fn words(call: Call, set: Set, prng: &mut Prng) -> Vec<Vec<u32>> {
    let mut below = |limit, length| inputs::below(limit, length, prng);
    match call {
        Call::MultiplyAdd => (0..3).map(|_| below(set.q, set.places())).collect(),
        Call::To(kind) => vec![below(kind.limit(set), kind.words(set))],
        _ => Vec::new(),
    }
}

/// The lengths of the buffers that a call writes.
fn written(call: Call, set: Set) -> Vec<usize> {
    match call {
        Call::Keygen => vec![set.secret_key_octets(), set.public_key_octets()],
        Call::Encrypt | Call::Add => vec![set.ciphertext_octets()],
        Call::Decrypt => vec![set.message_octets()],
        Call::From(kind) => vec![kind.words(set)],
        Call::To(kind) => vec![kind.octets(set)],
        _ => Vec::new(),
    }
}

/// A call that is given the set alone.
fn of_set(run: &mut Run, call: Call, set: Set) -> Answer {
    match call {
        Call::Limits => {
            let (number, bound, headroom) = compare::limits(run, set);
            Answer::new(number, [bound, headroom])
        }
        Call::Lengths => {
            let (number, lengths) = compare::lengths(run, set);
            Answer::new(number, lengths)
        }
        _ => Answer::new(compare::check(run, set), [0u32; 0]),
    }
}

/// A buffer that has an exact length.
#[derive(Clone, Copy)]
enum Place {
    Octets(usize),
    Words(usize),
    Written(usize),
    Work,
}

impl Given {
    /// What is accepted.
    pub fn new(call: Call, set: Set, prng: &mut Prng) -> Self {
        Given {
            octets: octets(call, set, prng),
            words: words(call, set, prng),
            written: written(call, set),
            work: set.work_words(),
        }
    }

    /// The call on this set.
    pub fn make(&self, run: &mut Run, call: Call, set: Set) -> Answer {
        let (octets, words, written, work) = (&self.octets, &self.words, &self.written, self.work);
        match call {
            Call::Check | Call::Limits | Call::Lengths => of_set(run, call, set),
            Call::Keygen | Call::Encrypt => self.make_drawing(run, call, set),
            Call::IsZero => {
                let (number, zero) = compare::is_zero(run, set, &octets[0], &octets[1], work);
                Answer::new(number, [zero])
            }
            Call::Add => {
                let (number, sum) = compare::add(run, set, &octets[0], &octets[1], written[0]);
                Answer::new(number, sum)
            }
            Call::Decrypt => {
                let message = written[0];
                let lengths = DecryptLengths { message, work };
                let (number, got) = compare::decrypt(run, set, &octets[0], &octets[1], lengths);
                Answer::new(number, got)
            }
            Call::MultiplyAdd => {
                let (number, got) =
                    compare::multiply_add(run, set, &words[0], &words[1], &words[2]);
                Answer::new(number, got)
            }
            Call::From(kind) => {
                let (number, got) = compare::from_octets(run, set, kind, &octets[0], written[0]);
                Answer::new(number, got)
            }
            Call::To(kind) => {
                let (number, got) = compare::to_octets(run, set, kind, &words[0], written[0]);
                Answer::new(number, got)
            }
        }
    }

    fn make_drawing(&self, run: &mut Run, call: Call, set: Set) -> Answer {
        let (octets, work) = (&self.octets, self.work);
        if call == Call::Keygen {
            let lengths = KeygenLengths {
                secret_key: self.written[0],
                public_key: self.written[1],
                work,
            };
            let keys = compare::keygen(run, set, &octets[0], lengths);
            let octets = [keys.secret_key, keys.public_key].concat();
            let written = octets.into_iter().map(u64::from);
            return Answer::new(keys.number, written.chain([keys.dropped_elements]));
        }
        let ciphertext = self.written[0];
        let lengths = EncryptLengths { ciphertext, work };
        let made = compare::encrypt(run, set, &octets[0], &octets[1], &octets[2], lengths);
        let written = made.ciphertext.into_iter().map(u64::from);
        Answer::new(made.number, written.chain([made.used, made.dropped_groups]))
    }

    /// The buffers that have an exact length.
    fn places(&self, call: Call) -> Vec<Place> {
        let random = call.random();
        let octets = (0..self.octets.len()).filter(|&at| Some(at) != random);
        let mut list: Vec<Place> = octets.map(Place::Octets).collect();
        list.extend((0..self.words.len()).map(Place::Words));
        list.extend((0..self.written.len()).map(Place::Written));
        list.extend(call.has_work().then_some(Place::Work));
        list
    }

    /// Makes the length of a buffer wrong, by turns each one's; answers which.
    fn wrong_length(&mut self, call: Call, turn: usize, prng: &mut Prng) -> usize {
        let places = self.places(call);
        let which = turn % places.len();
        match places[which] {
            Place::Octets(at) => spoil_input(&mut self.octets[at], prng),
            Place::Words(at) => {
                let length = spoil_length(self.words[at].len(), prng);
                self.words[at].resize(length, 0);
            }
            Place::Written(at) => self.written[at] = spoil_length(self.written[at], prng),
            Place::Work => self.work = spoil_length(self.work, prng),
        }
        which
    }

    /// An unused bit: of the message, or of one of the small elements.
    fn wrong_padding(&mut self, call: Call, set: Set, prng: &mut Prng) {
        let (packed, used_bits) = match call {
            Call::Encrypt => (&mut self.octets[1][..], set.mlen),
            _ => {
                let elements = self.octets[0].len() / set.small_octets();
                let which = prng.below(elements as u64) as usize;
                let mut elements = self.octets[0].chunks_mut(set.small_octets());
                (elements.nth(which).expect("so many"), set.n * set.b())
            }
        };
        spoil_padding(packed, used_bits as usize, prng);
    }

    /// A coefficient that is q or more, or l or more.
    fn wrong_coefficient(&mut self, call: Call, set: Set, prng: &mut Prng) {
        if !self.words.is_empty() {
            let limit = match call {
                Call::To(kind) => kind.limit(set),
                _ => set.q,
            };
            let which = prng.below(self.words.len() as u64) as usize;
            let place = prng.below(self.words[which].len() as u64) as usize;
            self.words[which][place] = spoiled_number(limit, 32, prng);
            return;
        }
        let which = match call {
            Call::Add => prng.below(2) as usize,
            Call::IsZero | Call::Decrypt => 1,
            _ => 0,
        };
        spoil_coefficient(set, &mut self.octets[which], prng);
    }

    /// Adds what is refused by these numbers of the call's. Answers which buffer's length is wrong.
    pub fn spoil(
        &mut self,
        run: &mut Run,
        call: Call,
        set: Set,
        given: &[u32],
        turn: usize,
    ) -> Option<usize> {
        let (mut which, small) = (None, set.small_octets());
        // From the last to the first, so that what is wrong stays so.
        for number in call
            .refusals()
            .iter()
            .rev()
            .filter(|number| given.contains(number))
        {
            let prng = &mut run.prng;
            match number {
                6 => which = Some(self.wrong_length(call, turn, prng)),
                7 => self.wrong_padding(call, set, prng),
                8 => self.wrong_coefficient(call, set, prng),
                9 => {
                    let random = call.random().expect("it draws");
                    self.octets[random].truncate(prng.below(2 * small as u64 + 1) as usize);
                }
                10 => {
                    let last = self.octets[1].len() - set.qlen();
                    self.octets[1][last] = 1;
                }
                14 => {
                    let half = small * prng.below(2) as usize;
                    let element = with_top(set, &self.octets[0][half..][..small], 0);
                    self.octets[0][half..][..small].copy_from_slice(&element);
                }
                _ => unreachable!("the numbers of calls"),
            }
        }
        which
    }
}
