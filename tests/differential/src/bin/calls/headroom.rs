//! Sums: as many as the headroom allows and one more, and lists of calls with their ledger.

use differential::compare::{
    add, decrypt, double, encrypt, keygen, DecryptLengths, EncryptLengths, KeygenLengths,
};
use differential::inputs;
use differential::run::Run;
use differential::sets::{bits_of, in_any_edition, least_q, sets_with, DEGREES, MOST_Q, RANGES};
use reference::ledger::Ledger;
use reference::monomials::count;
use reference::octets::pack;
use reference::set::{bound, headroom, set};
use reference::Set;

pub fn all(run: &mut Run) {
    for l in RANGES {
        for (dx, dr) in DEGREES {
            for n in [2, 3, 5, 9] {
                let Some(least) = least_q(l, n, dx + dr) else {
                    continue;
                };
                let set = |q| set(l, q, n, dx, dr, n * bits_of(l));
                let at = least - 1;
                for s in (1..=6).filter(|s| *s <= (MOST_Q - 1) / at) {
                    // q = s * B has headroom s - 1, the next has s.
                    for q in [s * at, s * at + 1] {
                        if q > at && !run.skips() {
                            let set = in_any_edition(set(q), &mut run.prng);
                            worst(run, set);
                        }
                    }
                }
                let largest = in_any_edition(set(MOST_Q), &mut run.prng);
                doubled(run, largest);
                let sets = sets_with(l, n, (dx, dr), &mut run.prng);
                for set in sets {
                    if !run.skips() {
                        ledger(run, set, 12);
                    }
                }
            }
        }
    }
}

/// Every small coefficient l - 1, key and r zero: each ciphertext decrypts from exactly B. The sum
/// of the headroom's count stays below q; one more passes it.
fn worst(run: &mut Run, set: Set) {
    let at = bound(set.l, set.n, set.d());
    let s = headroom(set.q, at);
    let ones = pack(set.b(), &vec![set.l - 1; set.places()], set.small_octets());
    let secret_key = ones.repeat(2);
    let public_key = vec![0; set.public_key_octets()];
    let mut random = vec![0; count(set.dr) * set.element_octets()];
    random.extend(ones.repeat(count(set.d())));
    let lengths = EncryptLengths::of(set);
    let one = encrypt(run, set, &public_key, &ones, &random, lengths).ciphertext;

    let mut total = one.clone();
    for summands in 1..=s + 1 {
        if summands > 1 {
            total = add(run, set, &total, &one, one.len()).1;
        }
        let w = (summands * at) % u128::from(set.q);
        if summands <= s {
            run.expect(w == summands * at, set, "within the headroom nothing wraps");
        }
        let place = (w % u128::from(set.l)) as u32;
        let wanted = pack(set.b(), &vec![place; set.places()], set.message_octets());
        let lengths = DecryptLengths::of(set);
        let (number, message) = decrypt(run, set, &secret_key, &total, lengths);
        let right = number == 0 && message == wanted;
        run.expect(right, set, "a sum of worst cases");
    }
}

/// A sum of exactly the headroom's count, by doubling, with a made key.
fn doubled(run: &mut Run, set: Set) {
    let random = inputs::keygen_random(set, &mut run.prng);
    let keys = keygen(run, set, &random, KeygenLengths::of(set));
    let message = inputs::message(set, &mut run.prng);
    let (random, _) = inputs::encrypt_random(set, &mut run.prng);
    let lengths = EncryptLengths::of(set);
    let made = encrypt(run, set, &keys.public_key, &message, &random, lengths);
    let one = made.ciphertext;
    let s = headroom(set.q, bound(set.l, set.n, set.d()));

    let mut book = Ledger::new(set);
    book.encrypted(&message);
    let mut total = one.clone();
    for bit in (0..128 - s.leading_zeros() - 1).rev() {
        total = double(run, set, &total, one.len()).1;
        let last = book.entries.len() - 1;
        book.added(last, last);
        if s >> bit & 1 == 1 {
            total = add(run, set, &total, &one, one.len()).1;
            let last = book.entries.len() - 1;
            book.added(last, 0);
        }
    }
    let last = book.entries.len() - 1;
    run.expect(book.within_headroom(last), set, "the count is the headroom");
    let lengths = DecryptLengths::of(set);
    let (number, got) = decrypt(run, set, &keys.secret_key, &total, lengths);
    let right = number == 0 && got == book.message(last);
    run.expect(right, set, "a sum of the headroom's count");
}

/// A list of encryptions and additions, some refused; every entry within the headroom decrypts as
/// the ledger says, the others as the reference implementation says.
fn ledger(run: &mut Run, set: Set, calls: usize) {
    let random = inputs::keygen_random(set, &mut run.prng);
    let keys = keygen(run, set, &random, KeygenLengths::of(set));
    let mut book = Ledger::new(set);
    let mut given: Vec<Vec<u8>> = Vec::new();
    for _ in 0..calls {
        if given.is_empty() || run.prng.below(3) == 0 {
            let message = inputs::message(set, &mut run.prng);
            let (mut random, _) = inputs::encrypt_random(set, &mut run.prng);
            if run.prng.below(4) == 0 {
                random.pop();
            }
            let lengths = EncryptLengths::of(set);
            let made = encrypt(run, set, &keys.public_key, &message, &random, lengths);
            if made.number == 0 {
                book.encrypted(&message);
                given.push(made.ciphertext);
            }
            continue;
        }
        let a = run.prng.below(given.len() as u64) as usize;
        let b = run.prng.below(given.len() as u64) as usize;
        if run.prng.below(5) == 0 {
            let junk = vec![0xFF; set.ciphertext_octets()];
            let (number, _) = add(run, set, &given[a], &junk, junk.len());
            run.expect(number == 8, set, "junk isn't added");
            continue;
        }
        let (number, sum) = match a == b {
            true => double(run, set, &given[a], set.ciphertext_octets()),
            false => add(run, set, &given[a], &given[b], set.ciphertext_octets()),
        };
        run.expect(number == 0, set, "what was given is added");
        book.added(a, b);
        given.push(sum);
    }
    for (entry, ciphertext) in given.iter().enumerate() {
        let lengths = DecryptLengths::of(set);
        let (number, message) = decrypt(run, set, &keys.secret_key, ciphertext, lengths);
        if book.within_headroom(entry) {
            let right = number == 0 && message == book.message(entry);
            run.expect(right, set, "an entry decrypts as the ledger says");
        }
    }
}
