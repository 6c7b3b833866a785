//! What a caller does with a set: keys, the zero test, encryption, addition, decryption, with
//! random octets of every length. Numbers and counts that are known without the reference
//! implementation are held to that as well.

use differential::compare::{
    decrypt, double, encrypt, is_zero, keygen, DecryptLengths, EncryptLengths, KeygenLengths, Keys,
};
use differential::inputs;
use differential::run::Run;
use reference::monomials::count;
use reference::octets::{numbers_from_octets, numbers_to_octets, pack};
use reference::Set;

use crate::additions;

/// Everything.
pub fn all(run: &mut Run, set: Set) {
    let keys = keygens(run, set);
    zero_tests(run, set, &keys);
    let ciphertexts = encryptions(run, set, &keys);
    tails(run, set, &keys);
    other_ciphertexts(run, set, &keys);
    additions::sums(run, set, &ciphertexts);
}

/// Each call once, and once more with random octets that are one short.
pub fn once(run: &mut Run, set: Set) {
    let random = inputs::keygen_random(set, &mut run.prng);
    let keys = keygen_exactly(run, set, &random);
    keygen_short(run, set, &random[..random.len() - 1]);
    zero_is(run, set, &keys, 1);

    let message = inputs::message(set, &mut run.prng);
    let (random, _) = inputs::encrypt_random(set, &mut run.prng);
    let ciphertext = encrypt_exactly(run, set, &keys, &message, &random);
    let short = &random[..random.len() - 1];
    encrypt_short(run, set, &keys, &message, short);
    decrypt_to(run, set, &keys, &ciphertext, &message);
    additions::sums(run, set, &[ciphertext]);
}

/// Every coefficient at its top, for sums that must not wrap.
pub fn top(run: &mut Run, set: Set) {
    let q = |length| numbers_to_octets(set.qlen(), &vec![set.q - 1; length]);
    let bits = set.places() * set.b() as usize;
    let small = pack(set.b(), &vec![set.l - 1; set.places()], set.small_octets());
    let secret_key = small.repeat(2);

    let drawn = q(inputs::key_elements(set) * set.places());
    let drawn = [secret_key.clone(), drawn].concat();
    let keys = keygen_exactly(run, set, &drawn);
    zero_is(run, set, &keys, 1);

    let random = [
        q(count(set.dr) * set.places()),
        small.repeat(count(set.d())),
    ]
    .concat();
    let whole = Set {
        mlen: bits as u32,
        ..set
    };
    let message = &small;
    let public_key = q(set.public_key_words());
    let lengths = EncryptLengths::of(whole);
    let made = encrypt(run, whole, &public_key, message, &random, lengths);
    run.expect(made.number == 0, whole, "all at the top is encrypted");
    let ciphertext = q(set.ciphertext_words());
    let lengths = DecryptLengths::of(whole);
    decrypt(run, whole, &secret_key, &ciphertext, lengths);
    double(run, whole, &ciphertext, ciphertext.len());
}

/// Many random octets through keygen and encrypt, with drops of every kind.
pub fn draws(run: &mut Run, set: Set, rounds: usize) {
    let public_key = inputs::public_key(set, &mut run.prng);
    let message = inputs::message(set, &mut run.prng);
    for _ in 0..rounds {
        // Anything at all: enough or too little by chance.
        let enough = set.secret_key_octets() + set.public_key_octets();
        let length = run.prng.below(3 * enough as u64) as usize;
        let random = run.prng.octets(length);
        keygen(run, set, &random, KeygenLengths::of(set));
        let enough = 2 * set.ciphertext_octets();
        let length = run.prng.below(2 * enough as u64) as usize;
        let random = run.prng.octets(length);
        let lengths = EncryptLengths::of(set);
        encrypt(run, set, &public_key, &message, &random, lengths);
        // Only dropped groups: they end, and nothing was drawn.
        let groups = run.prng.below(40) as usize;
        let dropped: Vec<u8> = (0..groups)
            .flat_map(|_| inputs::dropped_group(set, &mut run.prng))
            .collect();
        let made = encrypt(run, set, &public_key, &message, &dropped, lengths);
        run.expect(made.number == 9, set, "dropped groups alone are 9");
    }
}

fn keygen_exactly(run: &mut Run, set: Set, random: &[u8]) -> Keys {
    let keys = keygen(run, set, random, KeygenLengths::of(set));
    let right = keys.number == 0 && keys.used == random.len() as u64;
    run.expect(right, set, "keygen uses exactly these octets");
    keys
}

fn keygen_short(run: &mut Run, set: Set, random: &[u8]) {
    let keys = keygen(run, set, random, KeygenLengths::of(set));
    run.expect(keys.number == 9, set, "too few octets for keygen are 9");
}

/// Random octets that are exact, longer, one short, none, cut anywhere, and with a dropped last
/// group.
fn keygens(run: &mut Run, set: Set) -> Keys {
    let random = inputs::keygen_random(set, &mut run.prng);
    let keys = keygen_exactly(run, set, &random);

    let more = 1 + run.prng.below(20) as usize;
    let longer = [random.clone(), run.prng.octets(more)].concat();
    let same = keygen(run, set, &longer, KeygenLengths::of(set));
    let right = same.number == 0
        && same.used == random.len() as u64
        && same.secret_key == keys.secret_key
        && same.public_key == keys.public_key;
    run.expect(right, set, "octets past the last draw don't matter");

    let cut = run.prng.below(random.len() as u64) as usize;
    for length in [random.len() - 1, 0, cut] {
        keygen_short(run, set, &random[..length]);
    }

    let start = random.len() - set.qlen();
    let dropped = inputs::dropped_group(set, &mut run.prng);
    let ends_dropped = [&random[..start], &dropped].concat();
    keygen_short(run, set, &ends_dropped);
    let drops_last = [&ends_dropped, &random[start..]].concat();
    let same = keygen_exactly(run, set, &drops_last);
    let right = same.public_key == keys.public_key;
    run.expect(right, set, "a dropped group changes only the count");
    keys
}

fn zero_is(run: &mut Run, set: Set, keys: &Keys, wanted: u32) {
    let (secret_key, public_key) = (&keys.secret_key, &keys.public_key);
    let (number, zero) = is_zero(run, set, secret_key, public_key, set.work_words());
    run.expect((number, zero) == (0, wanted), set, "the zero test");
}

/// A made key, keys that differ from it at one place, other secret keys, and keys of zeros.
fn zero_tests(run: &mut Run, set: Set, keys: &Keys) {
    zero_is(run, set, keys, 1);
    let n = set.places();
    let words = numbers_from_octets(set.qlen(), &keys.public_key);
    let constant = words.len() - n;
    let any = constant + run.prng.below(n as u64) as usize;
    for place in [constant, any, words.len() - 1] {
        let mut other = words.clone();
        other[place] = (other[place] + 1) % set.q;
        let other = Keys {
            public_key: numbers_to_octets(set.qlen(), &other),
            secret_key: keys.secret_key.clone(),
            ..*keys
        };
        zero_is(run, set, &other, 0);
    }
    let mut other = words.clone();
    let place = run.prng.below(words.len() as u64) as usize;
    other[place] = (other[place] + set.q / 2) % set.q;
    let other = numbers_to_octets(set.qlen(), &other);
    is_zero(run, set, &keys.secret_key, &other, set.work_words());

    let secret_key = inputs::secret_key(set, &mut run.prng);
    is_zero(run, set, &secret_key, &keys.public_key, set.work_words());
    let zeros = vec![0; set.public_key_octets()];
    let (number, zero) = is_zero(run, set, &secret_key, &zeros, set.work_words());
    run.expect((number, zero) == (0, 1), set, "a key of zeros");
    let any = inputs::public_key(set, &mut run.prng);
    is_zero(run, set, &secret_key, &any, set.work_words());
}

fn encrypt_exactly(run: &mut Run, set: Set, keys: &Keys, message: &[u8], random: &[u8]) -> Vec<u8> {
    let lengths = EncryptLengths::of(set);
    let made = encrypt(run, set, &keys.public_key, message, random, lengths);
    let right = made.number == 0 && made.used == random.len() as u64;
    run.expect(right, set, "encrypt uses exactly these octets");
    made.ciphertext
}

fn encrypt_short(run: &mut Run, set: Set, keys: &Keys, message: &[u8], random: &[u8]) {
    let lengths = EncryptLengths::of(set);
    let made = encrypt(run, set, &keys.public_key, message, random, lengths);
    run.expect(made.number == 9, set, "too few octets for encrypt are 9");
}

fn decrypt_to(run: &mut Run, set: Set, keys: &Keys, ciphertext: &[u8], wanted: &[u8]) {
    let lengths = DecryptLengths::of(set);
    let (number, message) = decrypt(run, set, &keys.secret_key, ciphertext, lengths);
    let right = number == 0 && message == wanted;
    run.expect(right, set, "a fresh ciphertext decrypts to its message");
}

/// As `keygens`, and each ciphertext decrypted.
fn encryptions(run: &mut Run, set: Set, keys: &Keys) -> Vec<Vec<u8>> {
    let message = inputs::message(set, &mut run.prng);
    let (random, for_r) = inputs::encrypt_random(set, &mut run.prng);
    let first = encrypt_exactly(run, set, keys, &message, &random);
    decrypt_to(run, set, keys, &first, &message);

    let more = 1 + run.prng.below(20) as usize;
    let longer = [random.clone(), run.prng.octets(more)].concat();
    let lengths = EncryptLengths::of(set);
    let same = encrypt(run, set, &keys.public_key, &message, &longer, lengths);
    let right = same.number == 0 && same.used == random.len() as u64 && same.ciphertext == first;
    run.expect(right, set, "octets past the last draw don't matter");

    let cut = run.prng.below(random.len() as u64) as usize;
    let in_r = run.prng.below(for_r as u64) as usize;
    for length in [random.len() - 1, 0, cut, in_r, for_r, for_r - 1, for_r + 1] {
        if length < random.len() {
            encrypt_short(run, set, keys, &message, &random[..length]);
        }
    }
    // r ends with a dropped group.
    let dropped = inputs::dropped_group(set, &mut run.prng);
    let ends_dropped = [&random[..for_r - set.qlen()], &dropped].concat();
    encrypt_short(run, set, keys, &message, &ends_dropped);
    let drops_last = [&ends_dropped, &random[for_r - set.qlen()..]].concat();
    let same = encrypt_exactly(run, set, keys, &message, &drops_last);
    run.expect(same == first, set, "a dropped group changes only the count");

    let message = inputs::message(set, &mut run.prng);
    let (random, _) = inputs::encrypt_random(set, &mut run.prng);
    let second = encrypt_exactly(run, set, keys, &message, &random);
    decrypt_to(run, set, keys, &second, &message);

    // Any key is encrypted under, not only a made one.
    let key = inputs::public_key(set, &mut run.prng);
    let made = encrypt(run, set, &key, &message, &random, lengths);
    run.expect(made.number == 0, set, "any key of coefficients below q");
    vec![first, second, made.ciphertext]
}

/// One message coefficient that isn't zero, at the last kept place, at the first and the last
/// place past mlen, and at another: the last three are 10.
fn tails(run: &mut Run, set: Set, keys: &Keys) {
    let n = set.places();
    let kept = (set.mlen / set.b()) as usize;
    let whole = set.whole();
    let mut list = vec![0, n - 1, kept.saturating_sub(1), kept];
    list.push(run.prng.below(n as u64) as usize);
    for place in list.into_iter().filter(|&place| place < n) {
        let mut m = vec![0; n];
        m[place] = 1 + run.prng.below(u64::from(set.l) - 1) as u32;
        let message = pack(set.b(), &m, whole.message_octets());
        let (random, _) = inputs::encrypt_random(set, &mut run.prng);
        let ciphertext = encrypt_exactly(run, whole, keys, &message, &random);
        let lengths = DecryptLengths::of(set);
        let (number, got) = decrypt(run, set, &keys.secret_key, &ciphertext, lengths);
        let right = if place < kept {
            number == 0 && got == pack(set.b(), &m[..kept], set.message_octets())
        } else {
            number == 10
        };
        run.expect(right, set, "only what lies past mlen is 10");
    }
}

/// Ciphertexts of any coefficients, any secret key.
fn other_ciphertexts(run: &mut Run, set: Set, keys: &Keys) {
    let whole = set.whole();
    for set in [set, whole] {
        let lengths = DecryptLengths::of(set);
        let ciphertext = inputs::ciphertext(set, &mut run.prng);
        decrypt(run, set, &keys.secret_key, &ciphertext, lengths);
        let secret_key = inputs::secret_key(set, &mut run.prng);
        decrypt(run, set, &secret_key, &ciphertext, lengths);
    }
    // Only the constant: w is what is given, up to q - 1.
    let start = set.ciphertext_octets() - set.element_octets();
    let w = inputs::below(set.q, set.places(), &mut run.prng);
    let mut ciphertext = vec![0; start];
    ciphertext.extend(numbers_to_octets(set.qlen(), &w));
    let lengths = DecryptLengths::of(whole);
    let (number, message) = decrypt(run, whole, &keys.secret_key, &ciphertext, lengths);
    let small: Vec<u32> = w.iter().map(|x| x % set.l).collect();
    let right = number == 0 && message == pack(set.b(), &small, whole.message_octets());
    run.expect(right, whole, "w is taken from 0 to q - 1, then modulo l");
}
