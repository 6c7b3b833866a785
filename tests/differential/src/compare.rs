//! Each call of the interface, made by the library and by the reference implementation on the same
//! arguments and judged. `inline` as in `ffi`.

use reference::octets::{numbers_to_octets, pack};
use reference::prng::Prng;
use reference::Set;

use crate::buffer::Buffer;
use crate::ffi;
use crate::run::{Made, Run};
use crate::used;

#[inline]
pub fn check(run: &mut Run, set: Set) -> u32 {
    run.announce("check", set);
    let number = ffi::check(set);
    run.judge(Made {
        call: "check",
        set,
        number,
        wanted: reference::check(set),
        inputs: &[],
        outputs: &[],
        work: None,
    });
    number
}

/// The number, the bound and the headroom.
#[inline]
pub fn limits(run: &mut Run, set: Set) -> (u32, u32, u32) {
    let mut bound = Buffer::one("bound", &mut run.prng);
    let mut headroom = Buffer::one("headroom", &mut run.prng);
    run.announce("limits", set);
    let number = ffi::limits(set, bound.cell_mut(), headroom.cell_mut());
    let wanted = reference::limits(set, bound.wanted_cell(), headroom.wanted_cell());
    run.judge(Made {
        call: "limits",
        set,
        number,
        wanted,
        inputs: &[],
        outputs: &[&bound, &headroom],
        work: None,
    });
    (number, bound.slice()[0], headroom.slice()[0])
}

/// The number, and the lengths of secret key, public key, message, ciphertext and work words.
#[inline]
pub fn lengths(run: &mut Run, set: Set) -> (u32, [u64; 5]) {
    let names = ["secret_key", "public_key", "message", "ciphertext", "work"];
    let [mut sk, mut pk, mut m, mut c, mut w] = names.map(|name| Buffer::one(name, &mut run.prng));
    run.announce("lengths", set);
    let number = ffi::lengths(
        set,
        sk.cell_mut(),
        pk.cell_mut(),
        m.cell_mut(),
        c.cell_mut(),
        w.cell_mut(),
    );
    let wanted = reference::lengths(
        set,
        sk.wanted_cell(),
        pk.wanted_cell(),
        m.wanted_cell(),
        c.wanted_cell(),
        w.wanted_cell(),
    );
    run.judge(Made {
        call: "lengths",
        set,
        number,
        wanted,
        inputs: &[],
        outputs: &[&sk, &pk, &m, &c, &w],
        work: None,
    });
    (number, [sk, pk, m, c, w].map(|one| one.slice()[0]))
}

/// The lengths of the buffers that keygen is given beside the random octets.
#[derive(Clone, Copy)]
pub struct KeygenLengths {
    pub secret_key: usize,
    pub public_key: usize,
    pub work: usize,
}

impl KeygenLengths {
    pub fn of(set: Set) -> Self {
        KeygenLengths {
            secret_key: set.secret_key_octets(),
            public_key: set.public_key_octets(),
            work: set.work_words(),
        }
    }
}

pub struct Keys {
    pub number: u32,
    pub secret_key: Vec<u8>,
    pub public_key: Vec<u8>,
    pub used: u64,
    pub dropped_groups: u64,
    pub dropped_elements: u64,
}

/// The two numbers that keygen and encrypt tell of their random octets.
struct Told {
    used: Buffer<u64>,
    dropped_groups: Buffer<u64>,
}

impl Told {
    fn garbage(prng: &mut Prng) -> Self {
        let used = Buffer::one("used", prng);
        let dropped_groups = garbage_after(&used, "dropped_groups");
        Told {
            used,
            dropped_groups,
        }
    }

    /// Both numbers. Those of an accepted call fit together, which needs no reference implementation:
    /// `wanted` gives the octets used from the dropped groups.
    fn numbers(&self, run: &Run, set: Set, number: u32, wanted: impl Fn(u64) -> u64) -> [u64; 2] {
        let [used, dropped_groups] = [&self.used, &self.dropped_groups].map(|one| one.slice()[0]);
        let right = number != 0 || used == wanted(dropped_groups);
        let words = "the octets used are the fixed part and those of what was dropped";
        run.expect(right, set, words);
        [used, dropped_groups]
    }
}

/// Garbage that is made from the number before it and takes nothing from the run's sequence, so that the known
/// answers of before the call told this number stay the same.
fn garbage_after(before: &Buffer<u64>, name: &'static str) -> Buffer<u64> {
    Buffer::one(name, &mut Prng::new(before.slice()[0]))
}

/// What keygen is lent.
struct KeygenBuffers {
    random: Buffer<u8>,
    secret_key: Buffer<u8>,
    public_key: Buffer<u8>,
    work: Buffer<u32>,
    told: Told,
    dropped_elements: Buffer<u64>,
}

impl KeygenBuffers {
    fn new(random: &[u8], lengths: KeygenLengths, prng: &mut Prng) -> Self {
        let random = Buffer::given("random", random, prng);
        let secret_key = Buffer::garbage("secret_key", lengths.secret_key, prng);
        let public_key = Buffer::garbage("public_key", lengths.public_key, prng);
        let work = Buffer::garbage("work", lengths.work, prng);
        let told = Told::garbage(prng);
        KeygenBuffers {
            random,
            secret_key,
            public_key,
            work,
            dropped_elements: garbage_after(&told.dropped_groups, "dropped_elements"),
            told,
        }
    }

    /// The library's number and the reference implementation's.
    #[inline]
    fn call(&mut self, set: Set) -> [u32; 2] {
        let number = ffi::keygen(
            set,
            self.random.slice(),
            self.secret_key.slice_mut(),
            self.public_key.slice_mut(),
            self.work.slice_mut(),
            self.told.used.cell_mut(),
            self.told.dropped_groups.cell_mut(),
            self.dropped_elements.cell_mut(),
        );
        let wanted = reference::keygen(
            set,
            self.random.wanted(),
            self.secret_key.wanted(),
            self.public_key.wanted(),
            self.work.wanted(),
            self.told.used.wanted_cell(),
            self.told.dropped_groups.wanted_cell(),
            self.dropped_elements.wanted_cell(),
        );
        [number, wanted]
    }
}

#[inline]
pub fn keygen(run: &mut Run, set: Set, random: &[u8], lengths: KeygenLengths) -> Keys {
    let mut lent = KeygenBuffers::new(random, lengths, &mut run.prng);
    run.announce("keygen", set);
    let [number, wanted] = lent.call(set);
    let told = &lent.told;
    run.judge(Made {
        call: "keygen",
        set,
        number,
        wanted,
        inputs: &[&lent.random],
        outputs: &[
            &lent.secret_key,
            &lent.public_key,
            &told.used,
            &told.dropped_groups,
            &lent.dropped_elements,
        ],
        work: Some(&lent.work),
    });
    let dropped_elements = lent.dropped_elements.slice()[0];
    let wanted = |groups| used::keygen(set, groups, dropped_elements);
    let [used, dropped_groups] = told.numbers(run, set, number, wanted);
    Keys {
        number,
        secret_key: lent.secret_key.contents(),
        public_key: lent.public_key.contents(),
        used,
        dropped_groups,
        dropped_elements,
    }
}

/// The number, and 1 or 0 where it is 0.
#[inline]
pub fn is_zero(
    run: &mut Run,
    set: Set,
    secret_key: &[u8],
    public_key: &[u8],
    work: usize,
) -> (u32, u32) {
    let prng = &mut run.prng;
    let mut secret_key = Buffer::given("secret_key", secret_key, prng);
    let mut public_key = Buffer::given("public_key", public_key, prng);
    let mut work = Buffer::garbage("work", work, prng);
    let mut zero = Buffer::one("zero", prng);
    run.announce("is_zero", set);
    let number = ffi::is_zero(
        set,
        secret_key.slice(),
        public_key.slice(),
        work.slice_mut(),
        zero.cell_mut(),
    );
    let wanted = reference::is_zero(
        set,
        secret_key.wanted(),
        public_key.wanted(),
        work.wanted(),
        zero.wanted_cell(),
    );
    run.judge(Made {
        call: "is_zero",
        set,
        number,
        wanted,
        inputs: &[&secret_key, &public_key],
        outputs: &[&zero],
        work: Some(&work),
    });
    (number, zero.slice()[0])
}

/// The lengths of the buffers that encrypt writes.
#[derive(Clone, Copy)]
pub struct EncryptLengths {
    pub ciphertext: usize,
    pub work: usize,
}

impl EncryptLengths {
    pub fn of(set: Set) -> Self {
        EncryptLengths {
            ciphertext: set.ciphertext_octets(),
            work: set.work_words(),
        }
    }
}

pub struct Encrypted {
    pub number: u32,
    pub ciphertext: Vec<u8>,
    pub used: u64,
    pub dropped_groups: u64,
}

/// What encrypt is lent.
struct EncryptBuffers {
    public_key: Buffer<u8>,
    message: Buffer<u8>,
    random: Buffer<u8>,
    ciphertext: Buffer<u8>,
    work: Buffer<u32>,
    told: Told,
}

impl EncryptBuffers {
    /// The library's number and the reference implementation's.
    #[inline]
    fn call(&mut self, set: Set) -> [u32; 2] {
        let number = ffi::encrypt(
            set,
            self.public_key.slice(),
            self.message.slice(),
            self.random.slice(),
            self.ciphertext.slice_mut(),
            self.work.slice_mut(),
            self.told.used.cell_mut(),
            self.told.dropped_groups.cell_mut(),
        );
        let wanted = reference::encrypt(
            set,
            self.public_key.wanted(),
            self.message.wanted(),
            self.random.wanted(),
            self.ciphertext.wanted(),
            self.work.wanted(),
            self.told.used.wanted_cell(),
            self.told.dropped_groups.wanted_cell(),
        );
        [number, wanted]
    }
}

#[inline]
pub fn encrypt(
    run: &mut Run,
    set: Set,
    public_key: &[u8],
    message: &[u8],
    random: &[u8],
    lengths: EncryptLengths,
) -> Encrypted {
    let prng = &mut run.prng;
    let mut lent = EncryptBuffers {
        public_key: Buffer::given("public_key", public_key, prng),
        message: Buffer::given("message", message, prng),
        random: Buffer::given("random", random, prng),
        ciphertext: Buffer::garbage("ciphertext", lengths.ciphertext, prng),
        work: Buffer::garbage("work", lengths.work, prng),
        told: Told::garbage(prng),
    };
    run.announce("encrypt", set);
    let [number, wanted] = lent.call(set);
    let told = &lent.told;
    run.judge(Made {
        call: "encrypt",
        set,
        number,
        wanted,
        inputs: &[&lent.public_key, &lent.message, &lent.random],
        outputs: &[&lent.ciphertext, &told.used, &told.dropped_groups],
        work: Some(&lent.work),
    });
    let wanted = |groups| used::encrypt(set, groups);
    let [used, dropped_groups] = told.numbers(run, set, number, wanted);
    Encrypted {
        number,
        ciphertext: lent.ciphertext.contents(),
        used,
        dropped_groups,
    }
}

/// The number and the sum's buffer.
#[inline]
pub fn add(run: &mut Run, set: Set, a: &[u8], b: &[u8], sum: usize) -> (u32, Vec<u8>) {
    let prng = &mut run.prng;
    let mut a = Buffer::given("a", a, prng);
    let mut b = Buffer::given("b", b, prng);
    let mut sum = Buffer::garbage("sum", sum, prng);
    run.announce("add", set);
    let number = ffi::add(set, a.slice(), b.slice(), sum.slice_mut());
    let wanted = reference::add(set, a.wanted(), b.wanted(), sum.wanted());
    run.judge(Made {
        call: "add",
        set,
        number,
        wanted,
        inputs: &[&a, &b],
        outputs: &[&sum],
        work: None,
    });
    (number, sum.contents())
}

/// Both summands in one buffer: the number and the sum's buffer.
#[inline]
pub fn double(run: &mut Run, set: Set, a: &[u8], sum: usize) -> (u32, Vec<u8>) {
    let prng = &mut run.prng;
    let mut a = Buffer::given("a", a, prng);
    let mut sum = Buffer::garbage("sum", sum, prng);
    run.announce("add", set);
    let number = ffi::add(set, a.slice(), a.slice(), sum.slice_mut());
    let same = a.wanted().to_vec();
    let wanted = reference::add(set, &same, &same, sum.wanted());
    run.judge(Made {
        call: "add",
        set,
        number,
        wanted,
        inputs: &[&a],
        outputs: &[&sum],
        work: None,
    });
    (number, sum.contents())
}

/// The lengths of the buffers that decrypt writes.
#[derive(Clone, Copy)]
pub struct DecryptLengths {
    pub message: usize,
    pub work: usize,
}

impl DecryptLengths {
    pub fn of(set: Set) -> Self {
        DecryptLengths {
            message: set.message_octets(),
            work: set.work_words(),
        }
    }
}

/// The number and the message's buffer.
#[inline]
pub fn decrypt(
    run: &mut Run,
    set: Set,
    secret_key: &[u8],
    ciphertext: &[u8],
    lengths: DecryptLengths,
) -> (u32, Vec<u8>) {
    let prng = &mut run.prng;
    let mut secret_key = Buffer::given("secret_key", secret_key, prng);
    let mut ciphertext = Buffer::given("ciphertext", ciphertext, prng);
    let mut message = Buffer::garbage("message", lengths.message, prng);
    let mut work = Buffer::garbage("work", lengths.work, prng);
    run.announce("decrypt", set);
    let number = ffi::decrypt(
        set,
        secret_key.slice(),
        ciphertext.slice(),
        message.slice_mut(),
        work.slice_mut(),
    );
    let wanted = reference::decrypt(
        set,
        secret_key.wanted(),
        ciphertext.wanted(),
        message.wanted(),
        work.wanted(),
    );
    run.judge(Made {
        call: "decrypt",
        set,
        number,
        wanted,
        inputs: &[&secret_key, &ciphertext],
        outputs: &[&message],
        work: Some(&work),
    });
    (number, message.contents())
}

/// The number and c's buffer, which held this c before.
#[inline]
pub fn multiply_add(run: &mut Run, set: Set, a: &[u32], b: &[u32], c: &[u32]) -> (u32, Vec<u32>) {
    let prng = &mut run.prng;
    let mut a = Buffer::given("a", a, prng);
    let mut b = Buffer::given("b", b, prng);
    let mut c = Buffer::given("c", c, prng);
    run.announce("multiply_add", set);
    let number = ffi::multiply_add(set, a.slice(), b.slice(), c.slice_mut());
    let wanted = reference::multiply_add(set, a.wanted(), b.wanted(), c.wanted());
    run.judge(Made {
        call: "multiply_add",
        set,
        number,
        wanted,
        inputs: &[&a, &b],
        outputs: &[&c],
        work: None,
    });
    (number, c.contents())
}

/// Both factors in one buffer: the number and c's buffer.
#[inline]
pub fn square_add(run: &mut Run, set: Set, a: &[u32], c: &[u32]) -> (u32, Vec<u32>) {
    let prng = &mut run.prng;
    let mut a = Buffer::given("a", a, prng);
    let mut c = Buffer::given("c", c, prng);
    run.announce("multiply_add", set);
    let number = ffi::multiply_add(set, a.slice(), a.slice(), c.slice_mut());
    let same = a.wanted().to_vec();
    let wanted = reference::multiply_add(set, &same, &same, c.wanted());
    run.judge(Made {
        call: "multiply_add",
        set,
        number,
        wanted,
        inputs: &[&a],
        outputs: &[&c],
        work: None,
    });
    (number, c.contents())
}

/// What a conversion is about.
#[derive(Clone, Copy, PartialEq, Eq)]
pub enum Kind {
    Element,
    Small,
    PublicKey,
    Ciphertext,
    SecretKey,
}

pub const KINDS: [Kind; 5] = [
    Kind::Element,
    Kind::Small,
    Kind::PublicKey,
    Kind::Ciphertext,
    Kind::SecretKey,
];

impl Kind {
    /// Whether its coefficients are small, and packed.
    pub fn is_packed(self) -> bool {
        matches!(self, Kind::Small | Kind::SecretKey)
    }

    /// The least number that a coefficient of this kind may not be.
    pub fn limit(self, set: Set) -> u32 {
        if self.is_packed() {
            set.l
        } else {
            set.q
        }
    }

    pub fn words(self, set: Set) -> usize {
        match self {
            Kind::Element | Kind::Small => set.places(),
            Kind::PublicKey => set.public_key_words(),
            Kind::Ciphertext => set.ciphertext_words(),
            Kind::SecretKey => set.secret_key_words(),
        }
    }

    pub fn octets(self, set: Set) -> usize {
        match self {
            Kind::Small => set.small_octets(),
            Kind::SecretKey => set.secret_key_octets(),
            _ => self.words(set) * set.qlen(),
        }
    }

    /// The octets of accepted words.
    pub fn octets_of(self, set: Set, words: &[u32]) -> Vec<u8> {
        if self.is_packed() {
            let packed = words.chunks(set.places());
            let packed = packed.map(|one| pack(set.b(), one, set.small_octets()));
            packed.collect::<Vec<_>>().concat()
        } else {
            numbers_to_octets(set.qlen(), words)
        }
    }

    pub fn from_name(self) -> &'static str {
        match self {
            Kind::Element => "element_from_octets",
            Kind::Small => "small_from_octets",
            Kind::PublicKey => "public_key_from_octets",
            Kind::Ciphertext => "ciphertext_from_octets",
            Kind::SecretKey => "secret_key_from_octets",
        }
    }

    pub fn to_name(self) -> &'static str {
        match self {
            Kind::Element => "element_to_octets",
            Kind::Small => "small_to_octets",
            Kind::PublicKey => "public_key_to_octets",
            Kind::Ciphertext => "ciphertext_to_octets",
            Kind::SecretKey => "secret_key_to_octets",
        }
    }
}

/// The number and the words' buffer.
#[inline]
pub fn from_octets(
    run: &mut Run,
    set: Set,
    kind: Kind,
    octets: &[u8],
    words: usize,
) -> (u32, Vec<u32>) {
    let mut octets = Buffer::given("octets", octets, &mut run.prng);
    let mut words = Buffer::garbage("words", words, &mut run.prng);
    run.announce(kind.from_name(), set);
    let (given, written) = (octets.slice(), words.slice_mut());
    let number = match kind {
        Kind::Element => ffi::element_from_octets(set, given, written),
        Kind::Small => ffi::small_from_octets(set, given, written),
        Kind::PublicKey => ffi::public_key_from_octets(set, given, written),
        Kind::Ciphertext => ffi::ciphertext_from_octets(set, given, written),
        Kind::SecretKey => ffi::secret_key_from_octets(set, given, written),
    };
    let (given, written) = (octets.wanted(), words.wanted());
    let wanted = match kind {
        Kind::Element => reference::element_from_octets(set, given, written),
        Kind::Small => reference::small_from_octets(set, given, written),
        Kind::PublicKey => reference::public_key_from_octets(set, given, written),
        Kind::Ciphertext => reference::ciphertext_from_octets(set, given, written),
        Kind::SecretKey => reference::secret_key_from_octets(set, given, written),
    };
    run.judge(Made {
        call: kind.from_name(),
        set,
        number,
        wanted,
        inputs: &[&octets],
        outputs: &[&words],
        work: None,
    });
    (number, words.contents())
}

/// The number and the octets' buffer.
#[inline]
pub fn to_octets(
    run: &mut Run,
    set: Set,
    kind: Kind,
    words: &[u32],
    octets: usize,
) -> (u32, Vec<u8>) {
    let mut words = Buffer::given("words", words, &mut run.prng);
    let mut octets = Buffer::garbage("octets", octets, &mut run.prng);
    run.announce(kind.to_name(), set);
    let (given, written) = (words.slice(), octets.slice_mut());
    let number = match kind {
        Kind::Element => ffi::element_to_octets(set, given, written),
        Kind::Small => ffi::small_to_octets(set, given, written),
        Kind::PublicKey => ffi::public_key_to_octets(set, given, written),
        Kind::Ciphertext => ffi::ciphertext_to_octets(set, given, written),
        Kind::SecretKey => ffi::secret_key_to_octets(set, given, written),
    };
    let (given, written) = (words.wanted(), octets.wanted());
    let wanted = match kind {
        Kind::Element => reference::element_to_octets(set, given, written),
        Kind::Small => reference::small_to_octets(set, given, written),
        Kind::PublicKey => reference::public_key_to_octets(set, given, written),
        Kind::Ciphertext => reference::ciphertext_to_octets(set, given, written),
        Kind::SecretKey => reference::secret_key_to_octets(set, given, written),
    };
    run.judge(Made {
        call: kind.to_name(),
        set,
        number,
        wanted,
        inputs: &[&words],
        outputs: &[&octets],
        work: None,
    });
    (number, octets.contents())
}
