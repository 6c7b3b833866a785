//! Writes the known-answer files: every call on small sets and on n = 1201 and 4096, successes and
//! each refusal. Each answer is the library's, and the reference implementation gave the same.
//!
//! Usage: known_answers DIRECTORY

mod editions;

use std::fmt::Write;
use std::path::Path;
use std::{env, fs, mem, process};

use differential::cases::{
    begun_with, A, DROPPED_ELEMENTS, DROPPED_GROUP, ELEMENTS, GIVEN_SECRETS, KEY_RANDOM, RANDOM,
};
use differential::compare::{
    self, DecryptLengths, EncryptLengths, Encrypted, KeygenLengths, Keys, Kind, KINDS,
};
use differential::inputs::{self, of_full_degree, top, with_top};
use differential::run::Run;
use differential::sets::MOST_Q;
use differential::sums::{
    all_but_one, meeting, mixed_summands, packed, powers_of_t, totals, turned_back, Elements, Parts,
};
use reference::draw::Draws;
use reference::monomials::{count, position};
use reference::octets::{numbers_from_octets, numbers_to_octets, pack};
use reference::ring::{negative, value, Polynomial};
use reference::set::{bit_length, bound, set};
use reference::Set;

const SEED: u64 = 0x4B41_5453;

/// A set with unused bits in every packed element and in the message.
const PADDED: Set = set(8, 1_048_573, 9, 1, 1, 21);

/// Every l, every pair of degrees, every number of octets; messages empty, partial and full.
const SMALL: [Set; 14] = [
    A,
    PADDED,
    set(2, 37, 2, 1, 1, 2),
    set(2, 251, 3, 1, 1, 1),
    set(2, 257, 6, 1, 1, 5),
    set(2, 1_000_003, 9, 2, 1, 0),
    set(2, 16_777_213, 7, 1, 2, 5),
    set(4, 65_536, 5, 1, 1, 8),
    set(4, MOST_Q, 9, 2, 2, 0),
    set(8, MOST_Q, 7, 2, 2, 18),
    set(8, 2_147_483_646, 11, 2, 1, 33),
    set(16, 16_777_215, 8, 1, 1, 32),
    set(16, 1_073_741_827, 5, 1, 2, 16),
    set(16, MOST_Q, 2, 2, 2, 8),
];

const LARGE: [(&str, Set); 2] = [
    ("n1201", set(4, 467_424_413, 1201, 1, 1, 2402)),
    ("n4096", set(2, 100_679_693, 4096, 1, 1, 4000)),
];

/// A set for each q at which sums of two coefficients are tried.
const SUMS: [Set; 5] = [
    set(2, 36, 2, 1, 1, 2),
    set(4, 65_535, 8, 1, 1, 16),
    set(2, 65_536, 8, 2, 2, 8),
    set(16, 16_777_216, 8, 1, 1, 32),
    set(8, MOST_Q, 8, 1, 2, 24),
];

fn hex(octets: &[u8]) -> String {
    octets.iter().fold(String::new(), |mut text, octet| {
        write!(text, "{octet:02X}").expect("a string");
        text
    })
}

fn hex_words(words: &[u32]) -> String {
    words.iter().fold(String::new(), |mut text, word| {
        write!(text, "{word:08X}").expect("a string");
        text
    })
}

/// A file: its name without the ending, and its records.
struct Answers {
    name: &'static str,
    run: Run,
    text: String,
    count: usize,
    /// The sets with which a secret key had a zero top coefficient.
    zero_tops: Vec<Set>,
    /// Whether every record says its edition. The other files are from before document 02's Q-7, in edition 1.
    says_edition: bool,
}

type Field = (&'static str, String);

impl Answers {
    fn new(name: &'static str) -> Self {
        Answers {
            name,
            run: Run::new(SEED),
            text: format!("# Giophantus, known answers: {name}\n"),
            count: 0,
            zero_tops: Vec::new(),
            says_edition: false,
        }
    }

    /// Makes a note where one of these elements of a secret key has a zero top coefficient.
    fn note_tops(&mut self, set: Set, elements: &[u8]) {
        let mut elements = elements.chunks(set.small_octets());
        let zero = elements.any(|element| top(set, element) == 0);
        if zero && !self.zero_tops.contains(&set) {
            self.zero_tops.push(set);
        }
    }

    /// The sets that were noted since the last time.
    fn noted(&mut self) -> Vec<Set> {
        mem::take(&mut self.zero_tops)
    }

    /// One record: the call, the set, what is given, the answer, and at success what is written.
    fn record(&mut self, call: &str, set: Set, given: &[Field], number: u32, written: &[Field]) {
        let numbers = [
            ("l", set.l),
            ("q", set.q),
            ("n", set.n),
            ("dx", set.dx),
            ("dr", set.dr),
            ("mlen", set.mlen),
        ];
        let mut line = |name: &str, value: &str| {
            writeln!(self.text, "{name} = {value}").expect("a string");
        };
        line("\ncount", &self.count.to_string());
        line("call", call);
        let edition = [("edition", set.edition)];
        let edition = edition.into_iter().filter(|_| self.says_edition);
        for (name, value) in numbers.into_iter().chain(edition) {
            line(name, &value.to_string());
        }
        for (name, value) in given {
            line(name, value);
        }
        line("answer", &number.to_string());
        for (name, value) in written.iter().filter(|_| number == 0) {
            line(name, value);
        }
        self.count += 1;
    }

    fn limits(&mut self, set: Set) {
        let number = compare::check(&mut self.run, set);
        self.record("check", set, &[], number, &[]);
        let (number, bound, headroom) = compare::limits(&mut self.run, set);
        let written = [
            ("bound", bound.to_string()),
            ("headroom", headroom.to_string()),
        ];
        self.record("limits", set, &[], number, &written);
        let (number, lengths) = compare::lengths(&mut self.run, set);
        let names = ["secret_key", "public_key", "message", "ciphertext", "work"];
        let written: Vec<Field> = names
            .into_iter()
            .zip(lengths.map(|x| x.to_string()))
            .collect();
        self.record("lengths", set, &[], number, &written);
    }

    fn keygen(&mut self, set: Set, random: &[u8], lengths: KeygenLengths) -> Keys {
        let keys = compare::keygen(&mut self.run, set, random, lengths);
        let given = [
            ("random", hex(random)),
            ("secret_key_len", lengths.secret_key.to_string()),
            ("public_key_len", lengths.public_key.to_string()),
            ("work_len", lengths.work.to_string()),
        ];
        let written = [
            ("secret_key", hex(&keys.secret_key)),
            ("public_key", hex(&keys.public_key)),
            ("used", keys.used.to_string()),
            ("dropped_groups", keys.dropped_groups.to_string()),
            ("dropped_elements", keys.dropped_elements.to_string()),
        ];
        self.record("keygen", set, &given, keys.number, &written);
        keys
    }

    fn is_zero(&mut self, set: Set, secret_key: &[u8], public_key: &[u8], work: usize) {
        let (number, zero) = compare::is_zero(&mut self.run, set, secret_key, public_key, work);
        let given = [
            ("secret_key", hex(secret_key)),
            ("public_key", hex(public_key)),
            ("work_len", work.to_string()),
        ];
        self.record(
            "is_zero",
            set,
            &given,
            number,
            &[("zero", zero.to_string())],
        );
    }

    fn encrypt(
        &mut self,
        set: Set,
        public_key: &[u8],
        message: &[u8],
        random: &[u8],
        lengths: EncryptLengths,
    ) -> Encrypted {
        let run = &mut self.run;
        let made = compare::encrypt(run, set, public_key, message, random, lengths);
        let given = [
            ("public_key", hex(public_key)),
            ("message", hex(message)),
            ("random", hex(random)),
            ("ciphertext_len", lengths.ciphertext.to_string()),
            ("work_len", lengths.work.to_string()),
        ];
        let written = [
            ("ciphertext", hex(&made.ciphertext)),
            ("used", made.used.to_string()),
            ("dropped_groups", made.dropped_groups.to_string()),
        ];
        self.record("encrypt", set, &given, made.number, &written);
        made
    }

    fn add(&mut self, set: Set, a: &[u8], b: &[u8], sum: usize) {
        let (number, got) = compare::add(&mut self.run, set, a, b, sum);
        let given = [("a", hex(a)), ("b", hex(b)), ("sum_len", sum.to_string())];
        self.record("add", set, &given, number, &[("sum", hex(&got))]);
    }

    /// Both summands in one buffer.
    fn double(&mut self, set: Set, a: &[u8], sum: usize) {
        let (number, got) = compare::double(&mut self.run, set, a, sum);
        let given = [
            ("a", hex(a)),
            ("b", "same".to_string()),
            ("sum_len", sum.to_string()),
        ];
        self.record("add", set, &given, number, &[("sum", hex(&got))]);
    }

    fn decrypt(&mut self, set: Set, secret_key: &[u8], ciphertext: &[u8], lengths: DecryptLengths) {
        let run = &mut self.run;
        let (number, message) = compare::decrypt(run, set, secret_key, ciphertext, lengths);
        let given = [
            ("secret_key", hex(secret_key)),
            ("ciphertext", hex(ciphertext)),
            ("message_len", lengths.message.to_string()),
            ("work_len", lengths.work.to_string()),
        ];
        let written = [("message", hex(&message))];
        self.record("decrypt", set, &given, number, &written);
    }

    fn multiply_add(&mut self, set: Set, a: &[u32], b: &[u32], c: &[u32]) {
        let (number, after) = compare::multiply_add(&mut self.run, set, a, b, c);
        let given = [
            ("a", hex_words(a)),
            ("b", hex_words(b)),
            ("c", hex_words(c)),
        ];
        let written = [("c_after", hex_words(&after))];
        self.record("multiply_add", set, &given, number, &written);
    }

    /// Both factors in one buffer.
    fn square_add(&mut self, set: Set, a: &[u32], c: &[u32]) {
        let (number, after) = compare::square_add(&mut self.run, set, a, c);
        let given = [
            ("a", hex_words(a)),
            ("b", "same".to_string()),
            ("c", hex_words(c)),
        ];
        let written = [("c_after", hex_words(&after))];
        self.record("multiply_add", set, &given, number, &written);
    }

    fn octets_to_words(&mut self, set: Set, kind: Kind, octets: &[u8], words: usize) {
        let (number, got) = compare::from_octets(&mut self.run, set, kind, octets, words);
        let given = [("octets", hex(octets)), ("words_len", words.to_string())];
        let written = [("words", hex_words(&got))];
        self.record(kind.from_name(), set, &given, number, &written);
    }

    fn words_to_octets(&mut self, set: Set, kind: Kind, words: &[u32], octets: usize) {
        let (number, got) = compare::to_octets(&mut self.run, set, kind, words, octets);
        let given = [
            ("words", hex_words(words)),
            ("octets_len", octets.to_string()),
        ];
        let written = [("octets", hex(&got))];
        self.record(kind.to_name(), set, &given, number, &written);
    }

    fn write(self, directory: &Path) {
        let path = directory.join(format!("{}.rsp", self.name));
        if let Err(error) = fs::write(&path, &self.text) {
            eprintln!("{}: {error}", path.display());
            process::exit(1);
        }
        println!("{}.rsp: {} records", self.name, self.count);
    }
}

/// Sets refused by 1 to 5, at both sides of each limit, and by several numbers at once.
fn refused_sets() -> Vec<Set> {
    let mut list = Vec::new();
    for l in [0, 1, 3, 5, 17, u32::MAX] {
        list.push(Set { l, ..A });
    }
    for n in [0, 1, 4097, u32::MAX] {
        list.push(Set { n, ..A });
    }
    for (dx, dr) in [(0, 1), (1, 0), (3, 1), (1, 3), (u32::MAX, 3)] {
        list.push(Set { dx, dr, ..A });
    }
    for q in [0, 1454, 1455, MOST_Q + 1, u32::MAX] {
        list.push(Set { q, ..A });
    }
    for mlen in [1, 3, 5, 6, u32::MAX] {
        list.push(Set { mlen, ..A });
    }
    list.push(set(16, MOST_Q, 4096, 2, 2, 0));
    list.push(set(4, 467_424_411, 1201, 1, 1, 2402));
    list.push(set(2, 100_679_683, 4096, 1, 1, 0));
    // The bound passes 32 bits and is small modulo 2^32.
    for (l, d) in [(2, 3), (4, 2), (8, 4), (16, 3)] {
        let wraps = |&n: &u32| {
            let at = bound(l, n, d);
            at >> 32 != 0 && at % (1 << 32) < u128::from(MOST_Q)
        };
        let n = (2..4096).find(wraps).expect("some n");
        list.push(set(l, MOST_Q, n, d / 2, d - d / 2, 0));
    }
    list.push(set(4, u32::MAX, 2, 0, 1, 99));
    list.push(set(3, 0, 0, 0, 0, 99));
    list.push(set(4, 0, 1, 0, 0, 99));
    list.push(set(4, 0, 2, 0, 0, 99));
    list.push(set(4, 0, 2, 1, 1, 99));
    list
}

/// One refused set for each number from 1 to 5, and all five at once.
fn five_refusals() -> [Set; 6] {
    [
        Set { l: 3, ..A },
        Set { n: 1, ..A },
        Set { dr: 3, ..A },
        Set { q: 1455, ..A },
        Set { mlen: 3, ..A },
        set(3, 0, 1, 0, 0, 99),
    ]
}

fn limits(directory: &Path) {
    let mut file = Answers::new("limits");
    for set in SMALL.into_iter().chain(LARGE.map(|(_, set)| set)) {
        file.limits(set);
    }
    // Headroom at both sides of a multiple of the bound; the least accepted q.
    for q in [1456, 2909, 2910, 2911, 65_521, MOST_Q] {
        file.limits(Set { q, ..A });
    }
    file.limits(set(2, 100_679_684, 4096, 1, 1, 0));
    for set in refused_sets() {
        file.limits(set);
    }
    file.write(directory);
}

/// Where secret keys come from. Inputs from before document 02's Q-3 stay in the files: there a top coefficient may be
/// zero. With a set where one is, the records are made anew, at the end of the file.
#[derive(Clone, Copy)]
enum Secrets {
    BeforeQ3,
    Now,
}

impl Secrets {
    /// Exactly the random octets that keygen uses.
    fn random(self, file: &mut Answers, set: Set) -> Vec<u8> {
        match self {
            Secrets::BeforeQ3 => {
                let [x, y, coefficients] = inputs::keygen_parts(set, &mut file.run.prng);
                let secret = [x, y].concat();
                file.note_tops(set, &secret);
                [secret, coefficients].concat()
            }
            Secrets::Now => inputs::keygen_random(set, &mut file.run.prng),
        }
    }

    /// The keys of these random octets, not recorded.
    fn keys_from(self, file: &mut Answers, set: Set, random: &[u8]) -> Keys {
        let made = compare::keygen(&mut file.run, set, random, KeygenLengths::of(set));
        match self {
            Secrets::BeforeQ3 if (made.number, made.dropped_elements) != (0, 0) => {
                let keys = keys_before_q3(set, random);
                file.note_tops(set, &keys.secret_key);
                keys
            }
            _ => made,
        }
    }

    fn keys(self, file: &mut Answers, set: Set) -> Keys {
        let random = self.random(file, set);
        self.keys_from(file, set, &random)
    }

    /// Any secret key.
    fn any(self, file: &mut Answers, set: Set) -> Vec<u8> {
        let prng = &mut file.run.prng;
        let any = [inputs::small(set, prng), inputs::small(set, prng)];
        self.of(file, set, any)
    }

    /// The secret key of these two elements.
    fn of(self, file: &mut Answers, set: Set, elements: [Vec<u8>; 2]) -> Vec<u8> {
        match self {
            Secrets::BeforeQ3 => {
                file.note_tops(set, &elements.concat());
                elements.concat()
            }
            Secrets::Now => elements.map(|one| of_full_degree(set, &one)).concat(),
        }
    }
}

/// What keygen made of these octets when it dropped no elements.
fn keys_before_q3(set: Set, random: &[u8]) -> Keys {
    let mut draws = Draws::new(random);
    let [x, y] = [(); 2].map(|()| draws.small(set).expect("enough octets"));
    let elements = (1..count(set.dx)).map(|_| draws.element(set).expect("enough octets"));
    let mut words = elements.collect::<Vec<_>>().concat();
    let zeros = vec![0; set.places()];
    let key = Polynomial::from_words(set.dx, set.places(), &[&words[..], &zeros].concat());
    words.extend(negative(set.q, &value(set.q, &key, &x, &y)));
    Keys {
        number: 0,
        secret_key: packed(set, &[x, y]),
        public_key: numbers_to_octets(set.qlen(), &words),
        used: draws.used(),
        dropped_groups: draws.dropped_groups(),
        dropped_elements: 0,
    }
}

/// Random octets that are exact, longer, one short, and end with a dropped group.
fn keygens_of(file: &mut Answers, secrets: Secrets, set: Set) {
    let lengths = KeygenLengths::of(set);
    let random = secrets.random(file, set);
    file.keygen(set, &random, lengths);
    let longer = [random.clone(), file.run.prng.octets(3)].concat();
    file.keygen(set, &longer, lengths);
    file.keygen(set, &random[..random.len() - 1], lengths);
    let start = random.len() - set.qlen();
    let dropped = inputs::dropped_group(set, &mut file.run.prng);
    file.keygen(set, &[&random[..start], &dropped].concat(), lengths);
}

/// Each length is one less and one more.
fn keygens_of_wrong_lengths(file: &mut Answers, set: Set) {
    let right = KeygenLengths::of(set);
    let random = Secrets::BeforeQ3.random(file, set);
    for by in [-1, 1] {
        for which in 0..3 {
            let mut lengths = right;
            let one = match which {
                0 => &mut lengths.secret_key,
                1 => &mut lengths.public_key,
                _ => &mut lengths.work,
            };
            *one = one.saturating_add_signed(by);
            file.keygen(set, &random, lengths);
        }
    }
}

fn keygens(directory: &Path) {
    let mut file = Answers::new("keygen");
    file.keygen(A, &KEY_RANDOM, KeygenLengths::of(A));
    file.keygen(A, &KEY_RANDOM[..9], KeygenLengths::of(A));
    for set in SMALL {
        keygens_of(&mut file, Secrets::BeforeQ3, set);
    }
    let again = file.noted();
    file.keygen(A, &[], KeygenLengths::of(A));
    for set in five_refusals() {
        file.keygen(set, &KEY_RANDOM, KeygenLengths::of(A));
    }
    for set in [A, PADDED] {
        keygens_of_wrong_lengths(&mut file, set);
    }
    // 6 before 9, 5 before 6.
    let lengths = KeygenLengths {
        secret_key: 3,
        work: 0,
        ..KeygenLengths::of(A)
    };
    file.keygen(A, &[], lengths);
    file.keygen(Set { mlen: 3, ..A }, &[], lengths);
    for set in again {
        keygens_of(&mut file, Secrets::Now, set);
    }
    file.write(directory);
}

/// A coefficient of q in place of the first one; in place of the last one a number whose low bits, as
/// many as q has, are 1, or q itself where qlen octets don't hold that.
fn with_q(set: Set, octets: &[u8], last: bool) -> Vec<u8> {
    let (bits, qlen) = (bit_length(set.q), set.qlen());
    let mut wrong = octets.to_vec();
    let (start, number) = match last {
        false => (0, set.q),
        true if bits as usize == 8 * qlen => (wrong.len() - qlen, set.q),
        true => (wrong.len() - qlen, (1 << bits) + 1),
    };
    wrong[start..][..qlen].copy_from_slice(&number.to_le_bytes()[..qlen]);
    wrong
}

/// The highest bit of an octet set.
fn with_top_bit(octets: &[u8], at: usize) -> Vec<u8> {
    let mut wrong = octets.to_vec();
    wrong[at] |= 0x80;
    wrong
}

/// One octet fewer, one more.
fn wrong_lengths(octets: &[u8]) -> [Vec<u8>; 2] {
    [
        octets[..octets.len().saturating_sub(1)].to_vec(),
        [octets, &[0]].concat(),
    ]
}

/// A made key, other secret keys, a key of zeros, and values that are zero but for one place.
fn zero_tests_of(file: &mut Answers, secrets: Secrets, set: Set) {
    let keys = secrets.keys(file, set);
    let other = secrets.any(file, set);
    let zeros = vec![0; set.public_key_octets()];
    let work = set.work_words();
    file.is_zero(set, &keys.secret_key, &keys.public_key, work);
    file.is_zero(set, &other, &keys.public_key, work);
    file.is_zero(set, &other, &zeros, work);
    // A value that is zero but for its first place, and but for its last.
    for place in [
        set.public_key_words() - set.places(),
        set.public_key_words() - 1,
    ] {
        let mut words = numbers_from_octets(set.qlen(), &keys.public_key);
        words[place] = (words[place] + 1) % set.q;
        let public_key = numbers_to_octets(set.qlen(), &words);
        file.is_zero(set, &keys.secret_key, &public_key, work);
    }
}

/// The refusals 6, 7 and 8.
fn refused_zero_tests(file: &mut Answers, secrets: Secrets, set: Set) {
    let Keys {
        secret_key,
        public_key,
        ..
    } = secrets.keys(file, set);
    let (half, work) = (set.small_octets(), set.work_words());
    for wrong in wrong_lengths(&secret_key) {
        file.is_zero(set, &wrong, &public_key, work);
    }
    for wrong in wrong_lengths(&public_key) {
        file.is_zero(set, &secret_key, &wrong, work);
    }
    file.is_zero(set, &secret_key, &public_key, work - 1);
    file.is_zero(set, &secret_key, &public_key, work + 1);
    let padded = [
        with_top_bit(&secret_key, half - 1),
        with_top_bit(&secret_key, 2 * half - 1),
    ];
    for wrong in &padded {
        file.is_zero(set, wrong, &public_key, work);
    }
    for last in [false, true] {
        let wrong = with_q(set, &public_key, last);
        file.is_zero(set, &secret_key, &wrong, work);
        // 7 before 8, 6 before 7.
        file.is_zero(set, &padded[1], &wrong, work);
        file.is_zero(set, &padded[1], &wrong, 0);
    }
}

fn zero_tests(directory: &Path) {
    let mut file = Answers::new("is_zero");
    for set in SMALL {
        zero_tests_of(&mut file, Secrets::BeforeQ3, set);
    }
    let again = file.noted();
    let keys = Secrets::BeforeQ3.keys(&mut file, A);
    for set in five_refusals() {
        file.is_zero(set, &keys.secret_key, &keys.public_key, A.work_words());
    }
    for set in [A, PADDED] {
        refused_zero_tests(&mut file, Secrets::BeforeQ3, set);
    }
    let refused_again = file.noted();
    for set in again {
        zero_tests_of(&mut file, Secrets::Now, set);
    }
    for set in refused_again {
        refused_zero_tests(&mut file, Secrets::Now, set);
    }
    file.write(directory);
}

fn encryptions(directory: &Path) {
    let mut file = Answers::new("encrypt");
    let worked = compare::keygen(&mut file.run, A, &KEY_RANDOM, KeygenLengths::of(A));
    let (key, right) = (worked.public_key, EncryptLengths::of(A));
    // Document 01's cases 3, 5 and 6.
    file.encrypt(A, &key, &[0x0E], &RANDOM, right);
    let mut random = RANDOM;
    random[1] = 8;
    file.encrypt(A, &key, &[0x0E], &random, right);
    let random = [&DROPPED_GROUP[..], &RANDOM].concat();
    file.encrypt(A, &key, &[0x0E], &random, right);
    file.encrypt(A, &key, &[0x0E], &RANDOM[..17], right);
    for set in SMALL {
        let keys = Secrets::BeforeQ3.keys(&mut file, set);
        let lengths = EncryptLengths::of(set);
        let message = inputs::message(set, &mut file.run.prng);
        let (random, for_r) = inputs::encrypt_random(set, &mut file.run.prng);
        let longer = [random.clone(), file.run.prng.octets(3)].concat();
        file.encrypt(set, &keys.public_key, &message, &longer, lengths);
        for length in [random.len() - 1, for_r, for_r - 1] {
            let short = &random[..length];
            file.encrypt(set, &keys.public_key, &message, short, lengths);
        }
    }
    for set in five_refusals() {
        file.encrypt(set, &key, &[0x0E], &RANDOM, right);
    }
    for set in [A, PADDED] {
        let key = Secrets::BeforeQ3.keys(&mut file, set).public_key;
        let right = EncryptLengths::of(set);
        let message = inputs::message(set, &mut file.run.prng);
        let (random, _) = inputs::encrypt_random(set, &mut file.run.prng);
        for wrong in wrong_lengths(&key) {
            file.encrypt(set, &wrong, &message, &random, right);
        }
        for wrong in wrong_lengths(&message) {
            file.encrypt(set, &key, &wrong, &random, right);
        }
        for by in [-1, 1] {
            let ciphertext = right.ciphertext.saturating_add_signed(by);
            let work = right.work.saturating_add_signed(by);
            let lengths = EncryptLengths {
                ciphertext,
                ..right
            };
            file.encrypt(set, &key, &message, &random, lengths);
            let lengths = EncryptLengths { work, ..right };
            file.encrypt(set, &key, &message, &random, lengths);
        }
        let padded = with_top_bit(&message, message.len() - 1);
        file.encrypt(set, &key, &padded, &random, right);
        for last in [false, true] {
            let wrong = with_q(set, &key, last);
            file.encrypt(set, &wrong, &message, &random, right);
            // 7 before 8, 8 before 9, 6 before all of them.
            file.encrypt(set, &wrong, &padded, &[], right);
            file.encrypt(set, &wrong, &message, &[], right);
            let lengths = EncryptLengths { work: 0, ..right };
            file.encrypt(set, &wrong, &padded, &[], lengths);
        }
        file.encrypt(set, &key, &padded, &[], right);
    }
    file.write(directory);
}

/// The ciphertext of a random message, not recorded.
fn ciphertext_of(file: &mut Answers, set: Set, keys: &Keys) -> Vec<u8> {
    let message = inputs::message(set, &mut file.run.prng);
    let (random, _) = inputs::encrypt_random(set, &mut file.run.prng);
    let (run, lengths) = (&mut file.run, EncryptLengths::of(set));
    compare::encrypt(run, set, &keys.public_key, &message, &random, lengths).ciphertext
}

fn additions(directory: &Path) {
    let mut file = Answers::new("add");
    for set in SMALL {
        let keys = Secrets::BeforeQ3.keys(&mut file, set);
        let a = ciphertext_of(&mut file, set, &keys);
        let b = ciphertext_of(&mut file, set, &keys);
        file.add(set, &a, &b, a.len());
        file.double(set, &a, a.len());
        // q - 1 twice; q - 1 and 1.
        let count = set.ciphertext_words();
        let tops = numbers_to_octets(set.qlen(), &vec![set.q - 1; count]);
        let ones = numbers_to_octets(set.qlen(), &vec![1; count]);
        file.double(set, &tops, a.len());
        file.add(set, &tops, &ones, a.len());
    }
    for set in five_refusals() {
        file.double(set, &[0; 24], 24);
    }
    for set in [A, PADDED] {
        let a = inputs::ciphertext(set, &mut file.run.prng);
        let b = inputs::ciphertext(set, &mut file.run.prng);
        for wrong in wrong_lengths(&a) {
            file.add(set, &wrong, &b, a.len());
            file.add(set, &b, &wrong, a.len());
            file.double(set, &wrong, a.len());
        }
        for sum in [a.len() - 1, a.len() + 1, 0] {
            file.add(set, &a, &b, sum);
        }
        for last in [false, true] {
            let wrong = with_q(set, &a, last);
            file.add(set, &wrong, &b, a.len());
            file.add(set, &b, &wrong, a.len());
            file.double(set, &wrong, a.len());
            // 6 before 8.
            file.double(set, &wrong, 0);
        }
    }
    file.write(directory);
}

/// Ciphertexts, sums, any coefficients, and coefficients of q - 1.
fn decryptions_of(file: &mut Answers, secrets: Secrets, set: Set) {
    let keys = secrets.keys(file, set);
    let lengths = DecryptLengths::of(set);
    let a = ciphertext_of(file, set, &keys);
    file.decrypt(set, &keys.secret_key, &a, lengths);
    let (_, sum) = compare::double(&mut file.run, set, &a, a.len());
    file.decrypt(set, &keys.secret_key, &sum, lengths);
    // Any coefficients, any secret key: 10 unless the message is full.
    let any = inputs::ciphertext(set, &mut file.run.prng);
    let secret_key = secrets.any(file, set);
    file.decrypt(set, &secret_key, &any, lengths);
    // Only the constant, each place q - 1.
    let constant = numbers_to_octets(set.qlen(), &vec![set.q - 1; set.places()]);
    let mut top = vec![0; a.len() - constant.len()];
    top.extend(constant);
    let whole = set.whole();
    file.decrypt(whole, &secret_key, &top, DecryptLengths::of(whole));
}

/// A message coefficient at the last kept place, and at each place past mlen.
fn tails(file: &mut Answers) {
    let whole = PADDED.whole();
    let keys = Secrets::BeforeQ3.keys(file, whole);
    for place in 6..9 {
        let mut m = vec![0; 9];
        m[place] = 4;
        let message = pack(whole.b(), &m, whole.message_octets());
        let (random, _) = inputs::encrypt_random(whole, &mut file.run.prng);
        let (run, lengths) = (&mut file.run, EncryptLengths::of(whole));
        let made = compare::encrypt(run, whole, &keys.public_key, &message, &random, lengths);
        let lengths = DecryptLengths::of(PADDED);
        file.decrypt(PADDED, &keys.secret_key, &made.ciphertext, lengths);
    }
}

/// The refusals 6, 7 and 8.
fn refused_decryptions(file: &mut Answers, secrets: Secrets, set: Set) {
    let keys = secrets.keys(file, set);
    let secret_key = keys.secret_key.clone();
    let ciphertext = ciphertext_of(file, set, &keys);
    let right = DecryptLengths::of(set);
    for wrong in wrong_lengths(&secret_key) {
        file.decrypt(set, &wrong, &ciphertext, right);
    }
    for wrong in wrong_lengths(&ciphertext) {
        file.decrypt(set, &secret_key, &wrong, right);
    }
    for by in [-1, 1] {
        let message = right.message.saturating_add_signed(by);
        let work = right.work.saturating_add_signed(by);
        let lengths = DecryptLengths { message, ..right };
        file.decrypt(set, &secret_key, &ciphertext, lengths);
        let lengths = DecryptLengths { work, ..right };
        file.decrypt(set, &secret_key, &ciphertext, lengths);
    }
    let half = set.small_octets();
    for at in [half - 1, 2 * half - 1] {
        let padded = with_top_bit(&secret_key, at);
        file.decrypt(set, &padded, &ciphertext, right);
        // 7 before 8, 6 before 7.
        let wrong = with_q(set, &ciphertext, true);
        file.decrypt(set, &padded, &wrong, right);
        let lengths = DecryptLengths { work: 0, ..right };
        file.decrypt(set, &padded, &wrong, lengths);
    }
    for last in [false, true] {
        let wrong = with_q(set, &ciphertext, last);
        file.decrypt(set, &secret_key, &wrong, right);
    }
}

fn decryptions(directory: &Path) {
    let mut file = Answers::new("decrypt");
    for set in SMALL {
        decryptions_of(&mut file, Secrets::BeforeQ3, set);
    }
    let again = file.noted();
    tails(&mut file);
    for set in five_refusals() {
        file.decrypt(set, &[9, 4], &[0; 24], DecryptLengths::of(A));
    }
    for set in [A, PADDED] {
        refused_decryptions(&mut file, Secrets::BeforeQ3, set);
    }
    let refused_again = file.noted();
    for set in again {
        decryptions_of(&mut file, Secrets::Now, set);
    }
    for set in refused_again {
        refused_decryptions(&mut file, Secrets::Now, set);
    }
    file.write(directory);
}

/// The four sums by turns, and in one buffer those that are even.
fn sums_in_additions(file: &mut Answers, set: Set) {
    let octets = |words: &[u32]| numbers_to_octets(set.qlen(), words);
    let (places, prng) = (set.ciphertext_words(), &mut file.run.prng);
    let [a, b] = mixed_summands(set.q, &totals(set.q), places, prng);
    file.add(set, &octets(&a), &octets(&b), set.ciphertext_octets());
    let even = totals(set.q).into_iter().filter(|x| x.is_multiple_of(2));
    let halves: Vec<u32> = even.map(|x| (x / 2) as u32).collect();
    let half: Vec<u32> = halves.into_iter().cycle().take(places).collect();
    file.double(set, &octets(&half), set.ciphertext_octets());
}

/// The secret key of these powers of t, and a polynomial whose value there is the sum of the three lists, place by
/// place.
fn three_meet(
    set: Set,
    degree: u32,
    powers: [usize; 2],
    [x, y, constant]: [Vec<u32>; 3],
) -> [Vec<u8>; 2] {
    let elements = vec![
        (position(degree, 1, 0), x),
        (position(degree, 0, 1), y),
        (count(degree) - 1, constant),
    ];
    meeting(set, degree, elements, powers)
}

/// The four sums by turns, as w, and in a key with a constant that brings each to 0.
fn sums_at_all_places(file: &mut Answers, set: Set, powers: [usize; 2]) {
    for some in totals(set.q).chunks(set.places().min(4)) {
        let [x, y] = mixed_summands(set.q, some, set.places(), &mut file.run.prng);
        let zeros = vec![0; set.places()];
        let lists = [x.clone(), y.clone(), zeros];
        let [secret_key, ciphertext] = three_meet(set, set.d(), powers, lists);
        file.decrypt(set, &secret_key, &ciphertext, DecryptLengths::of(set));
        let q = u64::from(set.q);
        let lacks = some.iter().map(|total| (2 * q - total) % q);
        let constant = lacks.map(|x| x as u32).cycle().take(set.places());
        let lists = [x, y, constant.collect()];
        let [secret_key, public_key] = three_meet(set, set.dx, powers, lists);
        file.is_zero(set, &secret_key, &public_key, set.work_words());
    }
}

/// A key in which each place has a sum of q, but for one that has the total.
fn sum_at_one_place(
    file: &mut Answers,
    set: Set,
    powers: [usize; 2],
    (total, place): (u64, usize),
) {
    let [x, y] = all_but_one(set, total, place, &mut file.run.prng);
    let zeros = vec![0; set.places()];
    let [secret_key, public_key] = three_meet(set, set.dx, powers, [x, y, zeros]);
    file.is_zero(set, &secret_key, &public_key, set.work_words());
}

/// Sums that three meet in, with a secret key of these powers of t.
fn sums_at_secret_key(file: &mut Answers, set: Set, powers: [usize; 2]) {
    sums_at_all_places(file, set, powers);
    let (n, [below, _, above, largest]) = (set.places(), totals(set.q));
    for (total, place) in [(below, 0), (above, n / 2), (largest, n - 1)] {
        sum_at_one_place(file, set, powers, (total, place));
    }
}

/// What encrypt makes of X and r, and of e and m at the constant alone.
fn encrypted_parts(file: &mut Answers, set: Set, [key, r]: [Elements; 2], [e, m]: [u32; 2]) {
    let filled = |x| vec![x; set.places()];
    let given = Parts {
        key,
        r,
        e: vec![(count(set.d()) - 1, filled(e))],
        message: filled(m),
    };
    let [public_key, message, random] = given.octets(set);
    file.encrypt(set, &public_key, &message, &random, EncryptLengths::of(set));
}

/// The four sums by turns as two products of x y; a product with l * e, and with m, in the sums that can
/// be.
fn sums_in_encryptions(file: &mut Answers, set: Set) {
    let at_both = |degree, [x, y]: [Vec<u32>; 2]| {
        vec![(position(degree, 1, 0), x), (position(degree, 0, 1), y)]
    };
    let one = powers_of_t(set, &[0]);
    let (list, prng) = (totals(set.q), &mut file.run.prng);
    let key = at_both(set.dx, mixed_summands(set.q, &list, set.places(), prng));
    let r = at_both(set.dr, [one.clone(), one.clone()]);
    encrypted_parts(file, set, [key, r], [0, 0]);
    for (factor, small) in [(set.l, [1, 0]), (1, [0, 1])] {
        let rests = list.into_iter().map(|total| total - u64::from(factor));
        let below: Vec<u64> = rests.filter(|&x| x < u64::from(set.q)).collect();
        let product = below.into_iter().map(|x| x as u32).cycle();
        let key = vec![(count(set.dx) - 1, product.take(set.places()).collect())];
        let r = vec![(count(set.dr) - 1, one.clone())];
        encrypted_parts(file, set, [key, r], small);
    }
}

fn sums(directory: &Path) {
    let mut file = Answers::new("sums");
    let large = set(2, 65_535, 81, 1, 1, 81);
    // From before document 02's Q-3: from n 3 on u_y has a zero top coefficient.
    for set in SUMS {
        sums_in_additions(&mut file, set);
        sums_at_secret_key(&mut file, set, [set.places() - 1, 1]);
        sums_in_encryptions(&mut file, set);
    }
    sums_at_all_places(&mut file, large, [80, 1]);
    sum_at_one_place(&mut file, large, [80, 1], (65_536, 80));
    for set in SUMS.into_iter().chain([large]).filter(|set| set.n > 2) {
        sums_at_secret_key(&mut file, set, [set.places() - 1; 2]);
    }
    file.write(directory);
}

fn words_of(file: &mut Answers, kind: Kind, set: Set) -> Vec<u32> {
    let limit = kind.limit(set);
    let any = |_| file.run.prng.below(u64::from(limit)) as u32;
    let mut words: Vec<u32> = (0..kind.words(set)).map(any).collect();
    words[0] = limit - 1;
    words
}

fn conversions(directory: &Path, name: &'static str, kinds: &[Kind]) {
    let mut file = Answers::new(name);
    for set in SMALL {
        for &kind in kinds {
            let words = words_of(&mut file, kind, set);
            let octets = kind.octets_of(set, &words);
            file.octets_to_words(set, kind, &octets, words.len());
            file.words_to_octets(set, kind, &words, octets.len());
            // One past what is accepted, and numbers whose low octets alone are accepted.
            for number in [words[0] + 1, 256, 1 << 16, 1 << 24] {
                let mut wrong = words.clone();
                wrong[words.len() - 1] = number;
                file.words_to_octets(set, kind, &wrong, octets.len());
            }
            if !kind.is_packed() {
                file.octets_to_words(set, kind, &with_q(set, &octets, true), words.len());
            } else if !(set.n * set.b()).is_multiple_of(8) {
                // The last octet of each packed element.
                for end in (1..=octets.len() / set.small_octets()).map(|k| k * set.small_octets()) {
                    let padded = with_top_bit(&octets, end - 1);
                    file.octets_to_words(set, kind, &padded, words.len());
                }
            }
        }
    }
    for &kind in kinds {
        let words = words_of(&mut file, kind, A);
        let octets = kind.octets_of(A, &words);
        for set in five_refusals() {
            file.octets_to_words(set, kind, &octets, words.len());
            file.words_to_octets(set, kind, &words, octets.len());
        }
        for wrong in wrong_lengths(&octets) {
            file.octets_to_words(A, kind, &wrong, words.len());
            file.words_to_octets(A, kind, &words, wrong.len());
        }
        file.octets_to_words(A, kind, &octets, words.len() - 1);
        file.octets_to_words(A, kind, &octets, words.len() + 1);
        file.words_to_octets(A, kind, &words[1..], octets.len());
        file.words_to_octets(A, kind, &[&words[..], &[0]].concat(), octets.len());
        // 6 before 7 and 8.
        file.octets_to_words(A, kind, &vec![0xFF; octets.len()], 0);
        file.octets_to_words(A, kind, &vec![0xFF; octets.len()], words.len());
        file.words_to_octets(A, kind, &vec![u32::MAX; words.len()], 0);
        file.words_to_octets(A, kind, &vec![u32::MAX; words.len()], octets.len());
    }
    file.write(directory);
}

/// The least q of all, and n and q on both sides of what the library takes another way: a product from n 81
/// on, sums of products from q 480191942 on.
const PRODUCTS: [Set; 6] = [
    set(2, 36, 2, 1, 1, 2),
    set(2, 38_724, 80, 1, 1, 80),
    set(2, 480_191_941, 80, 1, 1, 80),
    set(2, 480_191_942, 80, 1, 1, 80),
    set(2, 480_191_941, 81, 1, 1, 81),
    set(4, MOST_Q, 81, 1, 1, 162),
];

/// Three ring elements.
fn three_elements(file: &mut Answers, set: Set) -> [Vec<u32>; 3] {
    [(); 3].map(|()| words_of(file, Kind::Element, set))
}

/// Any elements in two buffers and one, a small one with c 0, a product of 1 at each place with q - 1, all
/// coefficients q - 1, and a product and c with the four sums by turns.
fn products_of(file: &mut Answers, set: Set) {
    let n = set.places();
    let [a, b, c] = three_elements(file, set);
    file.multiply_add(set, &a, &b, &c);
    file.square_add(set, &a, &c);
    let small = words_of(file, Kind::Small, set);
    file.multiply_add(set, &a, &small, &vec![0; n]);
    let tops = vec![set.q - 1; n];
    file.multiply_add(set, &vec![1; n], &powers_of_t(set, &[0]), &tops);
    file.multiply_add(set, &powers_of_t(set, &[n - 1]), &vec![1; n], &tops);
    file.square_add(set, &tops, &tops);
    let [product, c] = mixed_summands(set.q, &totals(set.q), n, &mut file.run.prng);
    let a = turned_back(&product, n - 1);
    file.multiply_add(set, &a, &powers_of_t(set, &[n - 1]), &c);
}

/// Three elements, one of which is wrong: in two buffers, and in one where it isn't b.
fn wrong_product(file: &mut Answers, set: Set, which: usize, [a, b, c]: &[Vec<u32>; 3]) {
    file.multiply_add(set, a, b, c);
    if which != 1 {
        file.square_add(set, a, c);
    }
}

/// A wrong word and a wrong length of each of the three, and both: 6 before 8.
fn refused_products(file: &mut Answers, set: Set) {
    let (q, n) = (set.q, set.places());
    let right = three_elements(file, set);
    for which in 0..3 {
        for (place, number) in [(0, q), (n / 2, u32::MAX), (n - 1, q + 1)] {
            let mut given = right.clone();
            given[which][place] = number;
            wrong_product(file, set, which, &given);
            given[(which + 1) % 3].pop();
            let [a, b, c] = &given;
            file.multiply_add(set, a, b, c);
        }
        for length in [0, n - 1, n + 1] {
            let mut given = right.clone();
            given[which].resize(length, 0);
            wrong_product(file, set, which, &given);
        }
    }
}

fn products(directory: &Path) {
    let mut file = Answers::new("multiply_add");
    // Document 01's case 1.
    file.multiply_add(A, &[1, 2], &[5, 7], &[0, 0]);
    for set in SMALL.into_iter().chain(PRODUCTS) {
        products_of(&mut file, set);
    }
    for set in five_refusals() {
        file.multiply_add(set, &[1, 2], &[5, 7], &[0, 0]);
        // Before 6, and before 8.
        file.multiply_add(set, &[1], &[5, 7], &[0, 0]);
        file.multiply_add(set, &[1, 2], &[5, 7], &[0, u32::MAX]);
    }
    for set in [A, PADDED] {
        refused_products(&mut file, set);
    }
    let [n1201, n4096] = LARGE.map(|(_, set)| set);
    let [a, b, c] = three_elements(&mut file, n1201);
    file.multiply_add(n1201, &a, &b, &c);
    let largest = Set { q: MOST_Q, ..n4096 };
    let [a, _, c] = three_elements(&mut file, largest);
    file.square_add(largest, &a, &c);
    file.write(directory);
}

/// The least q of all; q just above a power of two, of each qlen, so that nearly half of all groups are dropped; the
/// largest q, where the group of q itself is the only one dropped.
const DRAWS: [Set; 10] = [
    set(2, 36, 2, 1, 1, 2),
    set(2, 65, 2, 1, 1, 2),
    set(2, 129, 2, 2, 1, 1),
    set(2, 257, 5, 1, 1, 5),
    set(2, 32_769, 3, 2, 2, 3),
    set(2, 65_537, 40, 1, 1, 33),
    set(4, 8_388_609, 3, 1, 2, 0),
    set(8, 16_777_217, 5, 1, 1, 15),
    set(16, 1_073_741_825, 3, 2, 1, 8),
    set(4, MOST_Q, 4, 2, 2, 8),
];

/// Octets for draws of any numbers below q, with so many dropped groups before each.
fn drawn(file: &mut Answers, set: Set, before: &[usize]) -> Vec<u8> {
    let mut found = Vec::new();
    for &groups in before {
        found.extend(dropped(file, set, groups));
        let number = file.run.prng.below(u64::from(set.q)) as u32;
        found.extend(inputs::group(set, number, &mut file.run.prng));
    }
    found
}

fn dropped(file: &mut Answers, set: Set, groups: usize) -> Vec<u8> {
    let prng = &mut file.run.prng;
    let group = |_| inputs::dropped_group(set, prng);
    (0..groups).flat_map(group).collect()
}

fn small_draws(file: &mut Answers, set: Set, elements: usize) -> Vec<u8> {
    let prng = &mut file.run.prng;
    let small = |_| inputs::small_draw(set, prng);
    (0..elements).flat_map(small).collect()
}

/// Groups are dropped before the first draw alone, between two elements alone, before the last draw alone, and before
/// every draw.
fn places_of_dropped(set: Set, elements: usize) -> [Vec<usize>; 4] {
    let draws = elements * set.places();
    let [first, between, last] = [0, set.places(), draws - 1].map(|draw| {
        let mut before = vec![0; draws];
        before[draw] = 2;
        before
    });
    [first, between, last, vec![1; draws]]
}

/// Octets that end right after a group that is dropped before the first draw, between two elements and before the
/// last draw, and in the middle of the group after it, where that is more than one octet.
fn ended_after_dropped(file: &mut Answers, set: Set, elements: usize) -> Vec<Vec<u8>> {
    let mut found = Vec::new();
    for draw in [0, set.places(), elements * set.places() - 1] {
        let ended = [drawn(file, set, &vec![0; draw]), dropped(file, set, 1)].concat();
        let next = drawn(file, set, &[0]);
        found.extend((0..set.qlen().min(2)).map(|more| [&ended, &next[..more]].concat()));
    }
    found
}

/// Any octets, cut after the last one that is used; dropped groups; octets that end after one.
fn dropped_in_keygen(file: &mut Answers, secrets: Secrets, set: Set) {
    let (elements, lengths) = (count(set.dx) - 1, KeygenLengths::of(set));
    let any = file.run.prng.octets(8 * set.public_key_octets() + 64);
    let used = secrets.keys_from(file, set, &any).used;
    file.keygen(set, &any[..used as usize], lengths);
    let drawn_elements = [(); 2].map(|()| small_draws(file, set, 1));
    let secret = secrets.of(file, set, drawn_elements);
    for before in places_of_dropped(set, elements) {
        let random = [secret.clone(), drawn(file, set, &before)].concat();
        file.keygen(set, &random, lengths);
    }
    for ended in ended_after_dropped(file, set, elements) {
        file.keygen(set, &[secret.clone(), ended].concat(), lengths);
    }
}

/// The same in encrypt, and noise that is missing.
fn dropped_in_encrypt(file: &mut Answers, set: Set) {
    let (elements, lengths) = (count(set.dr), EncryptLengths::of(set));
    let key = inputs::public_key(set, &mut file.run.prng);
    let message = inputs::message(set, &mut file.run.prng);
    let any = file.run.prng.octets(8 * set.ciphertext_octets() + 64);
    let used = compare::encrypt(&mut file.run, set, &key, &message, &any, lengths).used;
    file.encrypt(set, &key, &message, &any[..used as usize], lengths);
    let noise = small_draws(file, set, count(set.d()));
    for before in places_of_dropped(set, elements) {
        let random = [drawn(file, set, &before), noise.clone()].concat();
        file.encrypt(set, &key, &message, &random, lengths);
    }
    let without = drawn(file, set, &vec![1; elements * set.places()]);
    file.encrypt(set, &key, &message, &without, lengths);
    for ended in ended_after_dropped(file, set, elements) {
        file.encrypt(set, &key, &message, &ended, lengths);
    }
}

fn draws(directory: &Path) {
    let mut file = Answers::new("draws");
    // Document 01's cases 2 and 3 with 1459, which is dropped: after the secret key's octets; in front and before the
    // third pair.
    let (secret, others) = KEY_RANDOM.split_at(2);
    let random = [secret, &DROPPED_GROUP, others].concat();
    let keys = file.keygen(A, &random, KeygenLengths::of(A));
    let (two_pairs, others) = RANDOM.split_at(4);
    let random = [&DROPPED_GROUP, two_pairs, &DROPPED_GROUP, others].concat();
    file.encrypt(A, &keys.public_key, &[0x0E], &random, EncryptLengths::of(A));
    for set in DRAWS {
        dropped_in_keygen(&mut file, Secrets::BeforeQ3, set);
        dropped_in_encrypt(&mut file, set);
    }
    for set in file.noted() {
        dropped_in_keygen(&mut file, Secrets::Now, set);
    }
    file.write(directory);
}

/// A drawn element with a zero top coefficient: all zero, all other bits 1, or any.
fn dropped_elements(file: &mut Answers, set: Set) -> [Vec<u8>; 3] {
    let any = file.run.prng.octets(set.small_octets());
    let elements = [vec![0; any.len()], vec![0xFF; any.len()], any];
    elements.map(|element| with_top(set, &element, 0))
}

/// Elements are dropped before u_x, before u_y, and before both; the octets end after one, and in the middle of the
/// element after it; forty zeros.
fn degrees_in_keygen(file: &mut Answers, set: Set) {
    let lengths = KeygenLengths::of(set);
    let [x, y, coefficients] = inputs::keygen_parts(set, &mut file.run.prng);
    let [x, y] = [x, y].map(|element| of_full_degree(set, &element));
    let [zeros, ones, any] = dropped_elements(file, set);
    for before in [
        [zeros.clone(), Vec::new()],
        [Vec::new(), ones.clone()],
        [
            [&any[..], &ones].concat(),
            [&zeros[..], &any, &ones].concat(),
        ],
    ] {
        let [before_x, before_y] = &before;
        let random = [before_x, &x, before_y, &y, &coefficients].map(|octets| &octets[..]);
        file.keygen(set, &random.concat(), lengths);
    }
    for begun in [&ones, &[&x[..], &any].concat()] {
        let begun: &[u8] = begun;
        for octets in [0, y.len() - 1] {
            file.keygen(set, &[begun, &y[..octets]].concat(), lengths);
        }
    }
    file.keygen(set, &[0; 40], lengths);
}

/// Noise with zero top coefficients.
fn degrees_in_encrypt(file: &mut Answers, set: Set) {
    let key = inputs::public_key(set, &mut file.run.prng);
    let message = inputs::message(set, &mut file.run.prng);
    let r = drawn(file, set, &vec![0; count(set.dr) * set.places()]);
    let kinds = dropped_elements(file, set);
    let noise = kinds.iter().cycle().take(count(set.d())).flatten();
    let random: Vec<u8> = r.iter().chain(noise).copied().collect();
    file.encrypt(set, &key, &message, &random, EncryptLengths::of(set));
}

/// Both calls with a secret key: w is 1 at each place, which is 10 past mlen.
fn given_secret(file: &mut Answers, set: Set, secret_key: &[u8], public_key: &[u8], wrong: bool) {
    let start = set.ciphertext_words() - set.places();
    let words = [vec![0; start], vec![1; set.places()]].concat();
    let ciphertext = numbers_to_octets(set.qlen(), &words);
    let [ciphertext, public_key] = [&ciphertext, public_key].map(|octets| match wrong {
        true => with_q(set, octets, true),
        false => octets.to_vec(),
    });
    file.decrypt(set, secret_key, &ciphertext, DecryptLengths::of(set));
    file.is_zero(set, secret_key, &public_key, set.work_words());
}

/// Secret keys with zero top coefficients in one element, the other and both, with all other coefficients l - 1 and 0,
/// and a top coefficient of 1 alone; with a zero top coefficient also a coefficient that is q, an unused bit, both, and
/// a wrong length.
fn degrees_in_secrets(file: &mut Answers, set: Set) {
    let key = inputs::public_key(set, &mut file.run.prng);
    let [full, zeros] = [set.l - 1, 0].map(|x| packed(set, &[vec![x; set.places()]]));
    let [low, single] = [with_top(set, &full, 0), with_top(set, &zeros, 1)];
    for elements in [
        [&low, &full],
        [&full, &low],
        [&low, &low],
        [&zeros, &zeros],
        [&single, &single],
    ] {
        let secret_key = elements.map(|element| &element[..]).concat();
        given_secret(file, set, &secret_key, &key, false);
    }
    let secret_key = [&full[..], &low].concat();
    given_secret(file, set, &secret_key, &key, true);
    if !(set.n * set.b()).is_multiple_of(8) {
        let padded = with_top_bit(&secret_key, full.len() - 1);
        given_secret(file, set, &padded, &key, false);
        given_secret(file, set, &padded, &key, true);
    }
    given_secret(file, set, &secret_key[1..], &key, true);
}

fn degrees(directory: &Path) {
    let mut file = Answers::new("degrees");
    for (random, _) in DROPPED_ELEMENTS {
        file.keygen(A, random, KeygenLengths::of(A));
    }
    file.keygen(A, &[0; 40], KeygenLengths::of(A));
    // More elements than 8 bits can count.
    let random = [&[0; 300][..], &KEY_RANDOM].concat();
    file.keygen(A, &random, KeygenLengths::of(A));
    for given in GIVEN_SECRETS {
        let set = Set {
            mlen: given.mlen,
            ..A
        };
        let [ciphertext, public_key] = given.polynomials();
        file.decrypt(set, &given.octets, &ciphertext, DecryptLengths::of(set));
        file.is_zero(set, &given.octets, &public_key, set.work_words());
    }
    for (set, element, _) in ELEMENTS {
        file.keygen(set, &begun_with(element), KeygenLengths::of(set));
    }
    for set in SMALL {
        degrees_in_keygen(&mut file, set);
        degrees_in_encrypt(&mut file, set);
        degrees_in_secrets(&mut file, set);
    }
    file.write(directory);
}

/// Each call once, refusals that need no long input, and the conversions. Random octets are any,
/// cut after the last one that is used.
fn large(directory: &Path, name: &'static str, set: Set) {
    let mut file = Answers::new(name);
    file.limits(set);
    let lengths = KeygenLengths::of(set);
    file.keygen(Set { q: 1000, ..set }, &[], lengths);
    file.keygen(set, &[0xFF; 100], lengths);
    let key_random = file.run.prng.octets(4 * set.public_key_octets());
    let keys = Secrets::BeforeQ3.keys_from(&mut file, set, &key_random);
    file.keygen(set, &key_random[..keys.used as usize], lengths);
    file.is_zero(set, &keys.secret_key, &keys.public_key, set.work_words());

    let kept = (set.mlen / set.b()) as usize;
    let any = |_| file.run.prng.below(u64::from(set.l)) as u32;
    let m: Vec<u32> = (0..kept).map(any).collect();
    let message = pack(set.b(), &m, set.message_octets());
    let random = file.run.prng.octets(4 * set.ciphertext_octets());
    let (run, lengths) = (&mut file.run, EncryptLengths::of(set));
    let used = compare::encrypt(run, set, &keys.public_key, &message, &random, lengths).used;
    let random = &random[..used as usize];
    let made = file.encrypt(set, &keys.public_key, &message, random, lengths);
    let lengths = DecryptLengths::of(set);
    file.decrypt(set, &keys.secret_key, &made.ciphertext, lengths);
    file.double(set, &made.ciphertext, made.ciphertext.len());

    for kind in KINDS {
        let words = words_of(&mut file, kind, set);
        let octets = kind.octets_of(set, &words);
        if kind != Kind::Ciphertext {
            file.octets_to_words(set, kind, &octets, words.len());
        }
        if kind != Kind::PublicKey {
            file.words_to_octets(set, kind, &words, octets.len());
        }
    }
    for set in file.noted() {
        large_again(&mut file, set, &key_random);
    }
    file.write(directory);
}

/// The calls with a secret key, which has elements of full degree.
fn large_again(file: &mut Answers, set: Set, random: &[u8]) {
    let keys = Secrets::Now.keys_from(file, set, random);
    file.keygen(set, &random[..keys.used as usize], KeygenLengths::of(set));
    file.is_zero(set, &keys.secret_key, &keys.public_key, set.work_words());
    let ciphertext = ciphertext_of(file, set, &keys);
    file.decrypt(set, &keys.secret_key, &ciphertext, DecryptLengths::of(set));
}

fn main() {
    let words: Vec<String> = env::args().skip(1).collect();
    let [directory] = words.as_slice() else {
        eprintln!("usage: known_answers DIRECTORY");
        process::exit(2);
    };
    let directory = Path::new(directory);
    limits(directory);
    keygens(directory);
    zero_tests(directory);
    encryptions(directory);
    additions(directory);
    decryptions(directory);
    let [others @ .., secret_key] = KINDS;
    conversions(directory, "conversions", &others);
    conversions(directory, "secret_key_conversions", &[secret_key]);
    sums(directory);
    products(directory);
    draws(directory);
    degrees(directory);
    editions::editions(directory);
    for (name, set) in LARGE {
        large(directory, name, set);
    }
}
