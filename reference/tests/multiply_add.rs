//! Request Q-8 of document 02: a * b + c in R_q, with c and the result in the same words.

use reference::prng::Prng;
use reference::ring;
use reference::set::{bound, set};
use reference::*;

/// The largest q.
const LARGEST: u32 = 2_147_483_647;

/// The smallest q of an accepted set. The bound grows with l, n, dX and dr; at the least of each,
/// 2, 2, 1 and 1, it is 35, and the next larger is 69.
const SMALLEST: Set = set(2, 36, 2, 1, 1, 2);

/// Every l, every pair of degrees, every qlen, prime and other q, even and odd n.
const SETS: [Set; 12] = [
    SMALLEST,
    set(2, 251, 3, 1, 1, 1),
    set(4, 1459, 2, 1, 1, 4),
    set(2, 65_521, 11, 1, 1, 11),
    set(4, 65_536, 5, 1, 1, 8),
    set(2, 16_777_213, 7, 1, 2, 5),
    set(8, 1_048_573, 9, 1, 1, 27),
    set(4, 467_424_413, 40, 1, 1, 80),
    set(8, 2_147_483_646, 11, 2, 1, 33),
    set(16, LARGEST, 2, 2, 2, 8),
    set(2, LARGEST, 80, 1, 1, 0),
    set(2, LARGEST, 81, 1, 1, 81),
];

/// l 2, degrees 1 and an empty message, at the least q that is accepted and at the largest.
fn least_and_largest(n: u32) -> [Set; 2] {
    let least = bound(2, n, 2) as u32 + 1;
    [least, LARGEST].map(|q| {
        let set = set(2, q, n, 1, 1, 0);
        assert_eq!(check(set), 0, "{set:?}");
        set
    })
}

fn random_element(set: Set, prng: &mut Prng) -> Vec<u32> {
    (0..set.n)
        .map(|_| prng.below(u64::from(set.q)) as u32)
        .collect()
}

/// t^i.
fn power(set: Set, i: usize) -> Vec<u32> {
    let mut words = vec![0; set.places()];
    words[i] = 1;
    words
}

/// An accepted call: what c holds after it.
fn accepted(set: Set, a: &[u32], b: &[u32], c: &[u32]) -> Vec<u32> {
    let mut words = c.to_vec();
    assert_eq!(multiply_add(set, a, b, &mut words), 0, "{set:?}");
    words
}

/// A refused call: its number, c as it was.
fn refused(set: Set, a: &[u32], b: &[u32], c: &[u32]) -> u32 {
    let mut words = c.to_vec();
    let number = multiply_add(set, a, b, &mut words);
    assert_ne!(number, 0, "{set:?}");
    assert_eq!(words, c);
    number
}

/// Case 1 of 01 with a c, and a product that wraps, each worked out by hand.
#[test]
fn by_hand() {
    let set_a = set(4, 1459, 2, 1, 1, 4);
    assert_eq!(accepted(set_a, &[1, 2], &[5, 7], &[0, 0]), [19, 17]);
    assert_eq!(accepted(set_a, &[1, 2], &[5, 7], &[1450, 1458]), [10, 16]);
    assert_eq!(accepted(set_a, &[1, 2], &[5, 7], &[1440, 1441]), [0, 1458]);

    // 3t^4 * (1 + 10t + 100t^2 + 1000t^3 + 10000t^4), with t^5 = 1.
    let five = set(2, 65_521, 5, 1, 1, 0);
    let b = [1, 10, 100, 1000, 10_000];
    let wanted = [31, 302, 3003, 30_004, 8];
    assert_eq!(
        accepted(five, &[0, 0, 0, 0, 3], &b, &[1, 2, 3, 4, 5]),
        wanted
    );
    assert_eq!(
        accepted(five, &b, &[0, 0, 0, 0, 3], &[1, 2, 3, 4, 5]),
        wanted
    );
}

/// a * b = 1 and c = q - 1 at every place: 0 at every place.
#[test]
fn sums_of_q() {
    for set in [2, 80, 81, 4096].into_iter().flat_map(least_and_largest) {
        let n = set.places();
        let (ones, c) = (vec![1; n], vec![set.q - 1; n]);
        assert_eq!(accepted(set, &ones, &power(set, 0), &c), vec![0; n]);
        assert_eq!(accepted(set, &power(set, n - 1), &ones, &c), vec![0; n]);
        // One less, and one more.
        assert_eq!(accepted(set, &vec![0; n], &ones, &c), c);
        let mut two = power(set, 0);
        two[n - 1] = 1;
        assert_eq!(accepted(set, &ones, &two, &c), ones);
    }
}

/// Every coefficient q - 1, which is -1: a * b is n at every place, and c takes 1 from it.
#[test]
fn largest_coefficients() {
    assert_eq!(check(SMALLEST), 0);
    assert_eq!(check(Set { q: 35, ..SMALLEST }), 4);
    let all = [35, 35];
    assert_eq!(accepted(SMALLEST, &all, &all, &all), [1, 1]);
    assert_eq!(accepted(SMALLEST, &all, &all, &[0, 0]), [2, 2]);
    assert_eq!(accepted(SMALLEST, &[0, 0], &all, &all), all);

    for set in [2, 80, 81, 4096].into_iter().flat_map(least_and_largest) {
        let n = set.places();
        let all = vec![set.q - 1; n];
        assert_eq!(accepted(set, &all, &all, &all), vec![set.n - 1; n]);
        assert_eq!(accepted(set, &all, &all, &vec![0; n]), vec![set.n; n]);
    }
}

/// At q = 36 there is one ring, with n = 2: every a and b, each pair with one c.
#[test]
fn every_product_of_the_smallest_ring() {
    let elements = || (0..36u32).flat_map(|x| (0..36u32).map(move |y| [x, y]));
    for (a, b) in elements().flat_map(|a| elements().map(move |b| (a, b))) {
        let c = [(a[0] + 7 * b[1]) % 36, 35];
        let wanted = [
            (a[0] * b[0] + a[1] * b[1] + c[0]) % 36,
            (a[0] * b[1] + a[1] * b[0] + c[1]) % 36,
        ];
        assert_eq!(ring::multiply_add(36, &a, &b, &c), wanted);
    }
}

/// t^i * t^j is t^((i + j) modulo n); t^(n - 1) * t is 1.
#[test]
fn powers_wrap() {
    let mut prng = Prng::new(11);
    for set in SETS {
        let n = set.places();
        let c = random_element(set, &mut prng);
        let mut wanted = c.clone();
        wanted[0] = (wanted[0] + 1) % set.q;
        assert_eq!(
            accepted(set, &power(set, n - 1), &power(set, 1), &c),
            wanted
        );
        for (i, j) in (0..n).flat_map(|i| (0..n).map(move |j| (i, j))) {
            let got = accepted(set, &power(set, i), &power(set, j), &vec![0; n]);
            assert_eq!(got, power(set, (i + j) % n));
        }
        // t^i * c turns c by i places.
        for i in 0..n {
            let mut turned = c.clone();
            turned.rotate_right(i);
            assert_eq!(accepted(set, &power(set, i), &c, &vec![0; n]), turned);
            assert_eq!(accepted(set, &c, &power(set, i), &vec![0; n]), turned);
        }
    }
}

/// The same as the product and then the sum; a and b in either order; a and b one buffer.
#[test]
fn agrees_with_product_and_sum() {
    let mut prng = Prng::new(12);
    let large = [4095, 4096].into_iter().flat_map(least_and_largest);
    for (set, count) in SETS
        .map(|set| (set, 20))
        .into_iter()
        .chain(large.map(|set| (set, 1)))
    {
        for _ in 0..count {
            let a = random_element(set, &mut prng);
            let b = random_element(set, &mut prng);
            let c = random_element(set, &mut prng);
            let wanted = ring::sum(set.q, &ring::product(set.q, &a, &b), &c);
            assert_eq!(accepted(set, &a, &b, &c), wanted);
            assert_eq!(accepted(set, &b, &a, &c), wanted);

            let squared = ring::sum(set.q, &ring::product(set.q, &a, &a), &c);
            assert_eq!(accepted(set, &a, &a, &c), squared);
            // c with the same words as a and b, in a buffer of its own.
            let all = ring::sum(set.q, &ring::product(set.q, &a, &a), &a);
            assert_eq!(accepted(set, &a, &a, &a), all);
        }
    }
}

/// (1 + 2t)^2 = 5 + 4t, with a and b one buffer.
#[test]
fn one_buffer_for_a_and_b() {
    let set = set(4, 1459, 2, 1, 1, 4);
    let a = [1, 2];
    let mut c = [1454, 1456];
    assert_eq!(multiply_add(set, &a, &a, &mut c), 0);
    assert_eq!((a, c), ([1, 2], [0, 1]));
    // Again with the result as c.
    assert_eq!(multiply_add(set, &a, &a, &mut c), 0);
    assert_eq!((a, c), ([1, 2], [5, 5]));
}

/// A set with everything wrong, put right number by number: 1 to 5, then 18, 6, 8 and 0.
#[test]
fn refusals_in_order() {
    let mut given = set(3, 0, 1, 0, 3, 9).in_edition(0);
    let bad = [u32::MAX; 3];
    assert_eq!(refused(given, &bad, &bad, &bad), 1);
    given.l = 4;
    assert_eq!(refused(given, &bad, &bad, &bad), 2);
    given.n = 4097;
    assert_eq!(refused(given, &bad, &bad, &bad), 2);
    given.n = 2;
    assert_eq!(refused(given, &bad, &bad, &bad), 3);
    given.dx = 1;
    assert_eq!(refused(given, &bad, &bad, &bad), 3);
    given.dr = 1;
    for q in [0, 1455, 2_147_483_648, u32::MAX] {
        given.q = q;
        assert_eq!(refused(given, &bad, &bad, &bad), 4);
        assert_eq!(refused(given, &[], &[], &[]), 4);
        assert_eq!(refused(given, &[0, 0], &[0, 0], &[0, 0]), 4);
    }
    given.q = 1456;
    assert_eq!(refused(given, &bad, &bad, &bad), 5);
    given.mlen = 3;
    assert_eq!(refused(given, &bad, &bad, &bad), 5);
    assert_eq!(refused(given, &[0, 0], &[0, 0], &[0, 0]), 5);
    given.mlen = 4;
    assert_eq!(refused(given, &bad, &bad, &bad), 18);
    given.edition = 3;
    assert_eq!(refused(given, &bad, &bad, &bad), 18);
    assert_eq!(refused(given, &[0, 0], &[0, 0], &[0, 0]), 18);
    given.edition = 2;
    assert_eq!(refused(given, &bad, &bad, &bad), 6);
    assert_eq!(refused(given, &bad[1..], &bad[1..], &bad[1..]), 8);
    assert_eq!(
        accepted(given, &[1455, 0], &[0, 1455], &[1455, 0]),
        [1455, 1]
    );
}

/// Each of the three too short, too long or empty, with every word bad: 6.
#[test]
fn lengths_are_exact() {
    for set in SETS.into_iter().chain(least_and_largest(4096)) {
        let n = set.places();
        let words = |count| vec![u32::MAX; count];
        for at in 0..3 {
            for count in [0, 1, n - 1, n + 1, 2 * n] {
                if count == n {
                    continue;
                }
                let mut counts = [n; 3];
                counts[at] = count;
                let [a, b, c] = counts.map(words);
                assert_eq!(refused(set, &a, &b, &c), 6);
                // All words right.
                let [a, b, c] = counts.map(|count| vec![1; count]);
                assert_eq!(refused(set, &a, &b, &c), 6);
                // The other two wrong instead.
                let mut counts = [count; 3];
                counts[at] = n;
                let [a, b, c] = counts.map(words);
                assert_eq!(refused(set, &a, &b, &c), 6);
            }
        }
        assert_eq!(refused(set, &words(n), &words(n), &words(n)), 8);
    }
}

/// A word of q or more at any place of each of the three: 8. One of q - 1 is accepted.
#[test]
fn words_are_below_q() {
    let mut prng = Prng::new(13);
    for set in SETS {
        let n = set.places();
        let good = [(); 3].map(|()| random_element(set, &mut prng));
        for (at, place) in (0..3).flat_map(|at| (0..n).map(move |place| (at, place))) {
            for word in [set.q, set.q + 1, 2_147_483_648, u32::MAX] {
                let mut given = good.clone();
                given[at][place] = word;
                let [a, b, c] = given;
                assert_eq!(refused(set, &a, &b, &c), 8);
            }
            let mut given = good.clone();
            given[at][place] = set.q - 1;
            let [a, b, c] = given;
            let wanted = ring::sum(set.q, &ring::product(set.q, &a, &b), &c);
            assert_eq!(accepted(set, &a, &b, &c), wanted);
        }
        // A factor of 0 does not excuse a bad word in the other.
        assert_eq!(refused(set, &vec![0; n], &vec![set.q; n], &good[2]), 8);
        assert_eq!(refused(set, &vec![set.q; n], &vec![0; n], &good[2]), 8);
    }
}
