//! Addition: sums of any ciphertexts, and every refusal.

use differential::compare::{add, double};
use differential::inputs;
use differential::run::Run;
use differential::spoil::ways;
use reference::octets::{numbers_from_octets, numbers_to_octets};
use reference::Set;

/// Sums of these and other ciphertexts, one with itself in one buffer, and sums of exactly q.
pub fn sums(run: &mut Run, set: Set, ciphertexts: &[Vec<u8>]) {
    let length = set.ciphertext_octets();
    let any = inputs::ciphertext(set, &mut run.prng);
    for a in ciphertexts.iter().chain([&any]) {
        let (number, twice) = double(run, set, a, length);
        run.expect(number == 0, set, "a ciphertext is added to itself");
        let (number, same) = add(run, set, a, a, length);
        let right = number == 0 && same == twice;
        run.expect(right, set, "one buffer or two");
        for b in [&any, &twice] {
            let (number, sum) = add(run, set, a, b, length);
            let (again, other) = add(run, set, b, a, length);
            let right = (number, again) == (0, 0) && sum == other;
            run.expect(right, set, "a + b is b + a");
        }
        let words = numbers_from_octets(set.qlen(), a);
        let negative: Vec<u32> = words.iter().map(|x| (set.q - x) % set.q).collect();
        let negative = numbers_to_octets(set.qlen(), &negative);
        let (number, sum) = add(run, set, a, &negative, length);
        let right = number == 0 && sum.iter().all(|&octet| octet == 0);
        run.expect(right, set, "a sum of q is 0");
    }
}

/// 0 to 2: both summands and the sum; 3 and 4: a coefficient of each summand.
pub fn refusals(run: &mut Run, set: Set, more: usize) {
    let first = inputs::ciphertext(set, &mut run.prng);
    let second = inputs::ciphertext(set, &mut run.prng);
    for way in ways(5, more, &mut run.prng) {
        let prng = &mut run.prng;
        let (mut a, mut b) = (first.clone(), second.clone());
        way.coefficient(3, set, &mut a, prng);
        way.coefficient(4, set, &mut b, prng);
        way.input(0, &mut a, prng);
        way.input(1, &mut b, prng);
        let sum = way.length(2, set.ciphertext_octets(), prng);
        let wrong = way.set(set, prng);
        let (two, _) = add(run, wrong, &a, &b, sum);
        let (one, _) = double(run, wrong, &a, sum);
        // In one buffer b isn't looked at.
        let right = two == way.refusal(&[6, 6, 6, 8, 8]) && one == way.refusal(&[6, 0, 6, 8, 0]);
        run.expect(right, wrong, "the first refusal that applies");
    }
}
