//! The types: what they accept, what they refuse, and sums.

use std::io::Read;

use giophantus::{Ciphertext, Element, Error, FixedSet, Keys, Message, Parameters, PublicKey, SecretKey};

/// Octets that are the same on every run (splitmix64). Not for keys.
struct Octets(u64);

impl Octets {
    fn number(&mut self) -> u64 {
        self.0 = self.0.wrapping_add(0x9E37_79B9_7F4A_7C15);
        let z = (self.0 ^ (self.0 >> 30)).wrapping_mul(0xBF58_476D_1CE4_E5B9);
        let z = (z ^ (z >> 27)).wrapping_mul(0x94D0_49BB_1331_11EB);
        z ^ (z >> 31)
    }

    fn below(&mut self, limit: u32) -> u32 {
        (self.number() % u64::from(limit)) as u32
    }
}

impl Read for Octets {
    fn read(&mut self, buffer: &mut [u8]) -> std::io::Result<usize> {
        for octet in buffer.iter_mut() {
            *octet = (self.number() >> 56) as u8;
        }
        Ok(buffer.len())
    }
}

/// Every ℓ, every pair of degrees, qlen 1 to 4, q just below and just above a power of two, messages of no, some and all
/// places, both editions.
const SETS: [&str; 17] = [
    "2 73 2 1 1 2",
    "2 251 3 1 1 2",
    "4 1459 2 1 1 4",
    "4 65521 2 1 1 2",
    "4 65537 2 1 1 4",
    "4 2147483647 9 1 2 18",
    "4 2147483647 25 2 2 30",
    "8 8388593 3 1 1 9",
    "8 2147483647 7 2 1 15",
    "8 2147483647 7 2 2 21",
    "16 2147483647 64 1 1 256",
    "16 52129279 8 1 1 16",
    "2 2147483647 30 2 1 0",
    "4 1459 2 1 1 4 2",
    "4 65537 2 1 1 4 2",
    "4 2147483647 9 2 1 18 2",
    "8 8388593 3 1 1 6 2",
];

fn sets() -> impl Iterator<Item = Parameters> {
    SETS.into_iter().map(|line| line.parse().unwrap_or_else(|error| panic!("{line}: {error}")))
}

#[test]
fn sums_within_the_headroom_decrypt_to_the_totals() {
    let mut octets = Octets(1);
    for set in sets() {
        let Keys { secret_key, public_key, .. } = set.keygen_from(&mut octets).unwrap();
        assert!(secret_key.is_zero_of(&public_key).unwrap());
        let mut totals = vec![0; set.counts_len()];
        let mut sum: Option<Ciphertext> = None;
        for _ in 0..set.headroom().min(40) {
            let counts: Vec<u32> = totals.iter().map(|_| octets.below(set.l())).collect();
            let message = Message::from_counts(&set, &counts).unwrap();
            assert_eq!(message.to_counts(), counts);
            let fresh = public_key.encrypt_from(&message, &mut octets).unwrap().ciphertext;
            assert_eq!(secret_key.decrypt(&fresh).unwrap(), message);
            totals.iter_mut().zip(&counts).for_each(|(total, count)| *total += count);
            let next = match sum {
                Some(sum) => (sum + &fresh).unwrap(),
                None => fresh,
            };
            let expected: Vec<u32> = totals.iter().map(|total| total % set.l()).collect();
            assert_eq!(secret_key.decrypt(&next).unwrap().to_counts(), expected, "{set}");
            sum = Some(next);
        }
    }
}

#[test]
fn a_reader_gives_what_a_slice_gives_and_loses_nothing() {
    let (mut dropped_by_keygen, mut dropped_elements, mut dropped_by_encryption) = (0, 0, 0);
    for set in sets() {
        let mut source = vec![0; 1 << 16];
        Octets(u64::from(set.n())).read_exact(&mut source).unwrap();
        let whole = set.keygen(&source).unwrap();
        let mut rest = &source[..];
        let read = set.keygen_from(&mut rest).unwrap();
        assert_eq!(read.public_key, whole.public_key);
        assert_eq!(read.secret_key.as_ref(), whole.secret_key.as_ref());
        assert_eq!(read.used, whole.used);
        assert_eq!(rest.len(), source.len() - whole.used.octets);
        dropped_by_keygen += read.used.dropped_groups;
        dropped_elements += read.used.dropped_elements;

        let message = Message::from_counts(&set, &vec![1; set.counts_len()]).unwrap();
        let whole = whole.public_key.encrypt(&message, rest).unwrap();
        let before = rest.len();
        let read = read.public_key.encrypt_from(&message, &mut rest).unwrap();
        assert_eq!(read.ciphertext, whole.ciphertext);
        assert_eq!((read.used, before - rest.len()), (whole.used, whole.used.octets));
        dropped_by_encryption += read.used.dropped_groups;
    }
    assert!(dropped_by_keygen > 0 && dropped_elements > 0 && dropped_by_encryption > 0);
}

/// How many of these groups have a number of q or more.
fn too_large(set: &Parameters, groups: &[u8]) -> usize {
    let bits = u32::BITS - set.q().leading_zeros();
    let number = |group: &[u8]| group.iter().rev().fold(0u64, |number, &octet| number << 8 | u64::from(octet));
    let groups = groups.chunks_exact(set.coefficient_len());
    groups.filter(|group| number(group) % (1 << bits) >= u64::from(set.q())).count()
}

/// The coefficients of a packed element, unused bits ignored.
fn unpacked(set: &Parameters, element: &[u8]) -> Vec<u32> {
    let bit = |at: u32| u32::from(element[at as usize / 8] >> (at % 8) & 1);
    (0..set.n()).map(|i| (0..set.b()).map(|j| bit(i * set.b() + j) << j).sum()).collect()
}

/// How many elements at the front are dropped until two are kept, and the words of those.
fn drawn_secret_key(set: &Parameters, source: &[u8]) -> (usize, Vec<u32>) {
    let elements: Vec<Vec<u32>> = source.chunks_exact(set.small_len()).map(|one| unpacked(set, one)).collect();
    let kept: Vec<usize> = (0..elements.len()).filter(|&at| elements[at].last() != Some(&0)).take(2).collect();
    (kept[1] - 1, [&elements[kept[0]][..], &elements[kept[1]]].concat())
}

/// What was dropped are the groups and elements among the octets, and the octets used are the fixed part and these.
#[test]
fn what_was_dropped_is_counted() {
    let mut most_elements = 0;
    for set in sets() {
        let mut source = vec![0; 1 << 16];
        Octets(11).read_exact(&mut source).unwrap();
        let keys = set.keygen(&source).unwrap();
        let (elements, secret_key) = drawn_secret_key(&set, &source);
        assert_eq!((keys.used.dropped_elements, keys.secret_key.to_words()), (elements, secret_key), "{set}");
        let groups = &source[set.small_len() * (elements + 2)..keys.used.octets];
        assert_eq!(keys.used.dropped_groups, too_large(&set, groups), "{set}");
        let dropped_octets = set.coefficient_len() * keys.used.dropped_groups + set.small_len() * elements;
        assert_eq!(keys.used.octets, set.keygen_fixed_octets() + dropped_octets, "{set}");
        most_elements = most_elements.max(elements);

        let message = Message::from_counts(&set, &vec![1; set.counts_len()]).unwrap();
        let used = keys.public_key.encrypt(&message, &source).unwrap().used;
        let small_elements = set.ciphertext_len() / set.element_len() * set.small_len();
        let groups = &source[..used.octets - small_elements];
        assert_eq!((used.dropped_groups, used.dropped_elements), (too_large(&set, groups), 0), "{set}");
        let dropped_octets = set.coefficient_len() * used.dropped_groups;
        assert_eq!(used.octets, set.encryption_fixed_octets() + dropped_octets, "{set}");
    }
    assert!(most_elements > 1);
}

/// From the same octets: equal keys and dropped elements. Edition 2 uses n further draws, and their dropped groups.
#[test]
fn both_editions_make_the_same_keys() {
    let mut more_dropped = 0;
    for (seed, set) in sets().enumerate() {
        let [first, second] = [1, 2].map(|edition| set.with_edition(edition).unwrap());
        let mut source = vec![0; 1 << 16];
        Octets(seed as u64).read_exact(&mut source).unwrap();
        let [one, two] = [first.keygen(&source).unwrap(), second.keygen(&source).unwrap()];
        assert_eq!(one.secret_key.as_ref(), two.secret_key.as_ref());
        assert_eq!(one.public_key.as_ref(), two.public_key.as_ref());
        assert_eq!(one.used.dropped_elements, two.used.dropped_elements);
        let dropped = too_large(&set, &source[one.used.octets..two.used.octets]);
        assert_eq!(two.used.dropped_groups - one.used.dropped_groups, dropped, "{set}");
        let further = set.element_len() + set.coefficient_len() * dropped;
        assert_eq!(two.used.octets - one.used.octets, further, "{set}");
        more_dropped += dropped;

        // One octet less: spent in edition 2, and as before in edition 1.
        let fewer = &source[..two.used.octets - 1];
        assert_eq!(second.keygen(fewer).unwrap_err(), Error::RandomExhausted);
        assert_eq!(first.keygen(fewer).unwrap().used, one.used);
        // Whatever the further draws are, the keys are those of edition 1.
        let zeros = [&source[..one.used.octets], &vec![0; set.element_len()]].concat();
        assert_eq!(second.keygen(&zeros).unwrap().public_key, two.public_key);
    }
    assert!(more_dropped > 0);
}

/// Each bit of an element alone: it is kept where the bit belongs to the top coefficient, and else dropped whole, as u_x
/// and as u_y, from a slice and from a reader.
#[test]
fn an_element_is_dropped_where_its_top_coefficient_is_zero() {
    for set in sets() {
        let used = set.n() * set.b();
        let full = vec![0xFF; set.small_len()];
        let drawn = vec![0; set.keygen_fixed_octets() - set.secret_key_len()];
        for bit in 0..8 * set.small_len() as u32 {
            let mut element = vec![0; set.small_len()];
            element[bit as usize / 8] = 1 << (bit % 8);
            let is_kept = (used - set.b()..used).contains(&bit);
            for front in [[&element[..], &full], [&full, &element]] {
                let (kept, more) = if is_kept { (front, &[][..]) } else { ([&full[..]; 2], &full[..]) };
                let source = [&front.concat(), more, &drawn, &[0x77; 5]].concat();
                let keys = set.keygen(&source).unwrap();
                let words = kept.map(|element| unpacked(&set, element)).concat();
                assert_eq!(keys.secret_key.to_words(), words, "{set}: bit {bit}");
                assert_eq!((keys.used.octets, keys.used.dropped_elements), (source.len() - 5, usize::from(!is_kept)));
                let mut rest = &source[..];
                assert_eq!(set.keygen_from(&mut rest).unwrap().used, keys.used);
                assert_eq!(rest, [0x77; 5]);
            }
        }
    }
}

/// One in ℓ, so 1 / (ℓ - 1) for each of the two that are kept. The limits are five standard deviations away.
#[test]
fn as_many_elements_are_dropped_as_l_makes_likely() {
    let mut octets = Octets(13);
    for (line, least, most) in [
        ("2 73 2 1 1 2", 7369, 8631),
        ("4 65521 2 1 1 4", 2369, 2964),
        ("8 8388593 3 1 1 9", 963, 1323),
        ("16 2147483647 8 1 1 32", 415, 652),
    ] {
        let set: Parameters = line.parse().unwrap();
        let dropped: usize = (0..4000).map(|_| set.keygen_from(&mut octets).unwrap().used.dropped_elements).sum();
        assert!((least..=most).contains(&dropped), "{set}: {dropped}");
    }
}

/// draws × (2^k / q - 1) on average, where q has k bits: hardly any just below a power of two, one for each draw just
/// above. The limits of the second to fourth set are five standard deviations away; draws × (1 - q / 2^k) would be 2000,
/// 3000 and 3571 there. In edition 2 there are half as many draws again.
#[test]
fn as_many_groups_are_dropped_as_q_makes_likely() {
    let mut octets = Octets(12);
    for (line, least, most) in [
        ("4 65521 2 1 1 4", 0, 10),
        ("4 65537 2 1 1 4", 3550, 4450),
        ("4 65537 2 1 1 4 2", 5450, 6550),
        ("16 52129279 8 1 1 16", 4200, 5000),
        ("16 2147483647 8 1 1 32", 0, 0),
    ] {
        let set: Parameters = line.parse().unwrap();
        let dropped: usize = (0..1000).map(|_| set.keygen_from(&mut octets).unwrap().used.dropped_groups).sum();
        assert!((least..=most).contains(&dropped), "{set}: {dropped}");
    }
}

#[test]
fn one_octet_less_than_used_is_exhausted() {
    for set in sets() {
        let mut source = vec![0; 1 << 16];
        Octets(7).read_exact(&mut source).unwrap();
        let keys = set.keygen(&source).unwrap();
        let used = keys.used.octets;
        assert_eq!(set.keygen(&source[..used]).unwrap().used, keys.used);
        assert_eq!(set.keygen(&source[..used - 1]).unwrap_err(), Error::RandomExhausted);
        assert_eq!(set.keygen_from(&source[..used - 1]).unwrap_err(), Error::RandomExhausted);
        assert_eq!(set.keygen(&[]).unwrap_err(), Error::RandomExhausted);
    }
}

#[test]
fn a_source_that_is_always_dropped_is_exhausted() {
    let set = Parameters::new(4, 1459, 2, 1, 1, 4).unwrap();
    // Groups, and elements.
    for octet in [0xFF, 0] {
        assert_eq!(set.keygen_from(std::io::repeat(octet)).unwrap_err(), Error::RandomExhausted);
        assert_eq!(set.keygen(&[octet; 1 << 16]).unwrap_err(), Error::RandomExhausted);
    }
}

#[test]
fn a_source_that_fails_says_so() {
    struct Broken;
    impl Read for Broken {
        fn read(&mut self, _: &mut [u8]) -> std::io::Result<usize> {
            Err(std::io::ErrorKind::ConnectionReset.into())
        }
    }
    let set = Parameters::new(4, 1459, 2, 1, 1, 4).unwrap();
    let error = set.keygen_from(Broken).unwrap_err();
    assert_eq!(error, Error::RandomSource(std::io::ErrorKind::ConnectionReset));
    assert_eq!(error.number(), None);
}

/// Secret keys whose words are all zero, all but one, or none but one: 14 where either top coefficient is zero, and no
/// refusal by the conversions. The ciphertext is refused with 10 under any other key: its value is its constant.
#[test]
fn a_zero_top_coefficient_is_refused_where_the_key_is_used() {
    for set in sets().filter(|set| set.counts_len() < set.n() as usize) {
        let n = set.n() as usize;
        let mut words = vec![0; set.ciphertext_len() / set.coefficient_len()];
        *words.last_mut().unwrap() = 1;
        let ciphertext = Ciphertext::from_words(&set, &words).unwrap();
        let public_key = PublicKey::from_words(&set, &vec![0; set.public_key_len() / set.coefficient_len()]).unwrap();
        let answers = |words: &[u32]| {
            let secret_key = SecretKey::from_words(&set, words).unwrap();
            assert_eq!(SecretKey::try_from((&set, secret_key.as_ref())).unwrap().to_words(), words);
            (secret_key.is_zero_of(&public_key), secret_key.decrypt(&ciphertext).unwrap_err())
        };
        let refused = (Err(Error::TopCoefficient), Error::TopCoefficient);
        for place in 0..2 * n {
            let mut words = vec![0; 2 * n];
            assert_eq!(answers(&words), refused, "{set}");
            words[place] = set.l() - 1;
            assert_eq!(answers(&words), refused, "{set}: place {place}");
            words.fill(set.l() - 1);
            words[place] = 0;
            let is_top = place == n - 1 || place == 2 * n - 1;
            let expected = if is_top { refused } else { (Ok(true), Error::Tail) };
            assert_eq!(answers(&words), expected, "{set}: place {place}");
        }
    }
}

#[test]
fn octets_of_another_length_are_refused() {
    for set in sets() {
        let zeros = |len: usize| vec![0u8; len];
        let lengths = [set.secret_key_len(), set.public_key_len(), set.ciphertext_len(), set.message_len()]
            .map(|len| [Some(len + 1), len.checked_sub(1)].into_iter().flatten().map(zeros).collect::<Vec<_>>());
        let [secret_keys, public_keys, ciphertexts, messages] = lengths;
        for octets in secret_keys {
            assert_eq!(SecretKey::try_from((&set, &octets[..])).unwrap_err(), Error::Length);
        }
        for octets in public_keys {
            assert_eq!(PublicKey::try_from((&set, &octets[..])), Err(Error::Length));
        }
        for octets in ciphertexts {
            assert_eq!(Ciphertext::try_from((&set, &octets[..])), Err(Error::Length));
        }
        for octets in messages {
            assert_eq!(Message::try_from((&set, &octets[..])), Err(Error::Length));
        }
    }
}

#[test]
fn every_unused_bit_is_judged() {
    for set in sets() {
        let used = (set.n() * set.b()) as usize;
        for half in 0..2 {
            for bit in 0..set.small_len() * 8 {
                let mut octets = vec![0; set.secret_key_len()];
                octets[half * set.small_len() + bit / 8] |= 1 << (bit % 8);
                let judged = SecretKey::try_from((&set, &octets[..]));
                assert_eq!(judged.err(), (bit >= used).then_some(Error::Padding), "{set}: bit {bit} of half {half}");
            }
        }
        for bit in 0..set.message_len() * 8 {
            let mut octets = vec![0; set.message_len()];
            octets[bit / 8] |= 1 << (bit % 8);
            let judged = Message::try_from((&set, &octets[..]));
            assert_eq!(judged.err(), (bit >= set.mlen() as usize).then_some(Error::Padding), "{set}: bit {bit}");
        }
    }
}

#[test]
fn words_and_octets_are_inverse() {
    let mut octets = Octets(3);
    for set in sets() {
        let n = set.n() as usize;
        let element: Vec<u32> = (0..n).map(|_| octets.below(set.q())).collect();
        assert_eq!(set.element_from_octets(&set.element_to_octets(&element).unwrap()).unwrap(), element);
        let small: Vec<u32> = (0..2 * n).map(|_| octets.below(set.l())).collect();
        assert_eq!(set.small_from_octets(&set.small_to_octets(&small[..n]).unwrap()).unwrap(), small[..n]);
        let secret_key = SecretKey::from_words(&set, &small).unwrap();
        assert_eq!(secret_key.to_words(), small);
        let halves = [&small[..n], &small[n..]].map(|half| set.small_to_octets(half).unwrap());
        assert_eq!(secret_key.as_ref(), halves.concat());
        let same = SecretKey::try_from((&set, secret_key.as_ref())).unwrap();
        assert_eq!(same.to_words(), small);

        let words = set.public_key_len() / set.coefficient_len();
        let words: Vec<u32> = (0..words).map(|_| octets.below(set.q())).collect();
        let public_key = PublicKey::from_words(&set, &words).unwrap();
        assert_eq!(public_key.to_words(), words);
        assert_eq!(PublicKey::try_from((&set, public_key.as_ref())), Ok(public_key));

        let words = set.ciphertext_len() / set.coefficient_len();
        let words: Vec<u32> = (0..words).map(|_| octets.below(set.q())).collect();
        let ciphertext = Ciphertext::from_words(&set, &words).unwrap();
        assert_eq!(ciphertext.to_words(), words);
        assert_eq!(Ciphertext::try_from((&set, ciphertext.as_ref())), Ok(ciphertext));
    }
}

#[test]
fn words_that_are_too_large_or_too_many_are_refused() {
    for set in sets() {
        let n = set.n() as usize;
        let last = |len: usize, word: u32| {
            let mut words = vec![0; len];
            words[len - 1] = word;
            words
        };
        assert!(set.element_to_octets(&last(n, set.q() - 1)).is_ok());
        assert_eq!(set.element_to_octets(&last(n, set.q())), Err(Error::Coefficient));
        assert_eq!(set.element_to_octets(&last(n + 1, 0)), Err(Error::Length));
        assert!(set.small_to_octets(&last(n, set.l() - 1)).is_ok());
        assert_eq!(set.small_to_octets(&last(n, set.l())), Err(Error::Coefficient));
        assert!(SecretKey::from_words(&set, &last(2 * n, set.l() - 1)).is_ok());
        for mut words in [last(2 * n, set.l()), [last(n, set.l()), last(n, 0)].concat()] {
            assert_eq!(SecretKey::from_words(&set, &words).unwrap_err(), Error::Coefficient);
            words.push(0);
            assert_eq!(SecretKey::from_words(&set, &words).unwrap_err(), Error::Length);
        }
        for len in [n, 2 * n - 1] {
            assert_eq!(SecretKey::from_words(&set, &last(len, set.l())).unwrap_err(), Error::Length);
        }
        let (words, ciphertext_words) =
            (set.public_key_len() / set.coefficient_len(), set.ciphertext_len() / set.coefficient_len());
        assert_eq!(PublicKey::from_words(&set, &last(words, set.q())), Err(Error::Coefficient));
        assert_eq!(PublicKey::from_words(&set, &last(words - 1, 0)), Err(Error::Length));
        assert_eq!(Ciphertext::from_words(&set, &last(ciphertext_words, set.q())), Err(Error::Coefficient));
        assert_eq!(Ciphertext::from_words(&set, &last(ciphertext_words + 1, 0)), Err(Error::Length));
        if set.counts_len() > 0 {
            assert_eq!(Message::from_counts(&set, &last(set.counts_len(), set.l())), Err(Error::Coefficient));
            assert_eq!(Message::from_counts(&set, &last(set.counts_len(), 0)[1..]), Err(Error::Length));
        }
        assert_eq!(Message::from_counts(&set, &last(set.counts_len() + 1, 0)), Err(Error::Length));
    }
}

fn drawn_element(set: &Parameters, octets: &mut Octets) -> Element {
    let words: Vec<u32> = (0..set.n()).map(|_| octets.below(set.q())).collect();
    Element::from_words(set, &words).unwrap()
}

/// An element whose coefficients are all the same.
fn filled_element(set: &Parameters, word: u32) -> Element {
    Element::from_words(set, &vec![word; set.n() as usize]).unwrap()
}

/// The words of a × b + c by the definition: t^n = 1, modulo q.
fn product_added(a: &Element, b: &Element, c: &Element) -> Vec<u32> {
    let (n, q) = (a.as_ref().len(), u128::from(a.parameters().q()));
    let [a, b, c] = [a, b, c].map(|one| one.as_ref().iter().map(|&word| u128::from(word)).collect::<Vec<_>>());
    let coefficient = |k: usize| c[k] + (0..n).map(|i| a[i] * b[(n + k - i) % n]).sum::<u128>();
    (0..n).map(|k| (coefficient(k) % q) as u32).collect()
}

#[test]
fn products_are_added_by_the_definition() {
    let mut octets = Octets(9);
    for set in sets() {
        let [a, b, mut c] = [0; 3].map(|_| drawn_element(&set, &mut octets));
        let (old_a, old_b) = (a.clone(), b.clone());
        for (a, b) in [(&a, &b), (&b, &a), (&a, &a)] {
            let expected = product_added(a, b, &c);
            c.multiply_add(a, b).unwrap();
            assert_eq!(c.to_words(), expected, "{set}");
        }
        assert_eq!((a, b), (old_a, old_b));
    }
}

#[test]
fn products_of_the_largest_coefficients_are_added() {
    for set in sets() {
        let (n, last) = (set.n() as usize, set.q() - 1);
        let mut one = vec![0; n];
        one[0] = 1;
        let one = Element::from_words(&set, &one).unwrap();
        let mut c = filled_element(&set, last);
        c.multiply_add(&filled_element(&set, 1), &one).unwrap();
        assert_eq!(c, Element::zero(&set), "{set}");

        // Each coefficient is n × (q - 1)² + q - 1, which is n - 1 modulo q.
        let mut c = filled_element(&set, last);
        c.multiply_add(&filled_element(&set, last), &filled_element(&set, last)).unwrap();
        assert_eq!(c.to_words(), vec![set.n() - 1; n], "{set}");
    }
}

#[test]
fn a_secret_key_is_a_zero_by_hand() {
    let mut octets = Octets(10);
    for set in sets().filter(|set| set.dx() == 1) {
        let keys = set.keygen_from(&mut octets).unwrap();
        let elements = |words: Vec<u32>| -> Vec<Element> {
            words.chunks(set.n() as usize).map(|words| Element::from_words(&set, words).unwrap()).collect()
        };
        let (public_key, secret_key) = (elements(keys.public_key.to_words()), elements(keys.secret_key.to_words()));
        let mut value = public_key[2].clone();
        value.multiply_add(&public_key[0], &secret_key[0]).unwrap();
        value.multiply_add(&public_key[1], &secret_key[1]).unwrap();
        assert_eq!(value, Element::zero(&set), "{set}");
    }
}

#[test]
fn elements_of_another_set_leave_the_sum_as_it_was() {
    let set = Parameters::new(4, 1459, 2, 1, 1, 4).unwrap();
    let a = Element::from_words(&set, &[1, 2]).unwrap();
    let old = Element::from_words(&set, &[5, 7]).unwrap();
    for other in ["4 1459 2 1 1 0", "4 1471 2 1 1 4", "2 1459 3 1 1 3"] {
        let other = filled_element(&other.parse().unwrap(), 1);
        let mut c = old.clone();
        for (a, b) in [(&a, &other), (&other, &a), (&other, &other)] {
            assert_eq!(c.multiply_add(a, b), Err(Error::DifferentSets));
            assert_eq!(c, old);
        }
        assert_ne!(filled_element(&set, 1), other);
    }
}

#[test]
fn elements_are_judged() {
    for set in sets() {
        let n = set.n() as usize;
        for (len, place) in [n - 1, n, n + 1].into_iter().flat_map(|len| (0..len).map(move |place| (len, place))) {
            let mut words = vec![0; len];
            words[place] = set.q() - 1;
            let judged = Element::from_words(&set, &words);
            assert_eq!(judged.as_ref().err(), (len != n).then_some(&Error::Length), "{set}");
            if let Ok(element) = judged {
                assert_eq!((element.as_ref(), element.to_words()), (&words[..], words.clone()));
                let octets = element.to_octets();
                assert_eq!(octets, set.element_to_octets(&words).unwrap());
                assert_eq!(Element::try_from((&set, &octets[..])), Ok(element));
            }
            // A word of q: 8, and 6 before it.
            words[place] = set.q();
            let expected = if len == n { Error::Coefficient } else { Error::Length };
            assert_eq!(Element::from_words(&set, &words), Err(expected), "{set}");
        }
        let mut octets = vec![0; set.element_len()];
        octets[..set.coefficient_len()].copy_from_slice(&set.q().to_le_bytes()[..set.coefficient_len()]);
        assert_eq!(Element::try_from((&set, &octets[..])), Err(Error::Coefficient));
        octets.push(0);
        assert_eq!(Element::try_from((&set, &octets[..])), Err(Error::Length));
        assert_eq!(Element::try_from((&set, &octets[2..])), Err(Error::Length));
    }
}

#[test]
fn values_of_two_sets_never_meet() {
    let mut octets = Octets(4);
    let set = Parameters::new(4, 65521, 2, 1, 1, 4).unwrap();
    let blank = set.blank();
    let keys = set.keygen_from(&mut octets).unwrap();
    let zeros = Message::from_counts(&set, &[0, 0]).unwrap();
    let nothing = Message::from_counts(&blank, &[]).unwrap();
    assert_eq!(keys.public_key.encrypt(&nothing, &[0; 99]).unwrap_err(), Error::DifferentSets);

    // A blank goes out with the same key under the set for blanks, and is not one of the summands.
    let (blank_key, blank_secret) = (keys.public_key.blank(), keys.secret_key.blank());
    assert_eq!(PublicKey::try_from((&blank, keys.public_key.as_ref())).as_ref(), Ok(&blank_key));
    let sent = blank_key.encrypt_from(&nothing, &mut octets).unwrap().ciphertext;
    let counts = keys.public_key.encrypt_from(&zeros, &mut octets).unwrap().ciphertext;
    assert_eq!(counts.as_ref().len(), sent.as_ref().len());
    assert_eq!(&counts + &sent, Err(Error::DifferentSets));
    assert_eq!(Ciphertext::try_sum([&counts, &sent]), Err(Error::DifferentSets));
    assert_eq!(keys.secret_key.decrypt(&sent), Err(Error::DifferentSets));
    assert_eq!(keys.secret_key.is_zero_of(&blank_key), Err(Error::DifferentSets));
    assert!(blank_secret.decrypt(&sent).unwrap().is_blank());
    assert_eq!(keys.secret_key.decrypt(&counts).unwrap(), zeros);
}

/// A key of edition 2 serves a laboratory whose set says edition 1, and the other way round. What a call gives has the set
/// of the value that it was called on.
#[test]
fn values_of_both_editions_meet() {
    let mut octets = Octets(6);
    let first = Parameters::new(4, 65521, 2, 1, 1, 4).unwrap();
    let second = first.with_edition(2).unwrap();
    for (office, laboratory) in [(first, second), (second, first)] {
        let keys = office.keygen_from(&mut octets).unwrap();
        let public_key = PublicKey::try_from((&laboratory, keys.public_key.as_ref())).unwrap();
        assert_ne!(public_key, keys.public_key);
        assert!(keys.secret_key.is_zero_of(&public_key).unwrap());
        let counts = Message::from_counts(&laboratory, &[1, 0]).unwrap();
        let [one, other] =
            [&public_key, &keys.public_key].map(|key| key.encrypt(&counts, &[5; 99]).unwrap().ciphertext);
        assert_eq!(one.as_ref(), other.as_ref());
        assert_eq!((one.parameters(), other.parameters()), (&laboratory, &office));
        let sum = Ciphertext::try_sum([&one, &other, &one]).unwrap().unwrap();
        assert_eq!(sum.parameters(), &laboratory);
        let total = keys.secret_key.decrypt(&sum).unwrap();
        assert_eq!((total.to_counts(), total.parameters()), (vec![3, 0], &office));

        let [a, b] = [office, laboratory].map(|set| Element::from_words(&set, &[1, 2]).unwrap());
        let mut c = Element::zero(&laboratory);
        c.multiply_add(&a, &b).unwrap();
        assert_eq!(c, Element::from_words(&laboratory, &[5, 4]).unwrap());

        // A blank is a blank in either edition.
        let blank = keys.public_key.blank();
        assert_eq!(blank.parameters().edition(), office.edition());
        assert_eq!(blank.encrypt(&counts, &[5; 99]).unwrap_err(), Error::DifferentSets);
        let nothing = Message::from_counts(&laboratory.blank(), &[]).unwrap();
        let sent = blank.encrypt(&nothing, &[5; 99]).unwrap().ciphertext;
        assert!(keys.secret_key.blank().decrypt(&sent).unwrap().is_blank());
        assert_eq!(&one + &sent, Err(Error::DifferentSets));
    }
}

/// Four counts of 0 to 15. A tag needs nothing but its numbers.
enum Trial {}

impl FixedSet for Trial {
    const NUMBERS: [u32; 6] = [16, 52129279, 8, 1, 1, 16];
}

enum Unfit {}

impl FixedSet for Unfit {
    const NUMBERS: [u32; 6] = [16, 10425855, 8, 1, 1, 16];
}

#[test]
fn with_a_tag_octets_alone_suffice() {
    let set = Parameters::<Trial>::fixed().unwrap();
    assert_eq!(set.any(), "16 52129279 8 1 1 16".parse().unwrap());
    let mut octets = Octets(5);
    let keys = set.keygen_from(&mut octets).unwrap().clone();
    let message = Message::from_counts(&set, &[1, 2, 3, 15]).unwrap();
    let ciphertext = keys.public_key.encrypt_from(&message, &mut octets).unwrap().clone().ciphertext;

    let secret_key = SecretKey::<Trial>::try_from(keys.secret_key.as_ref()).unwrap();
    let public_key = PublicKey::<Trial>::try_from(keys.public_key.as_ref()).unwrap();
    let ciphertext = Ciphertext::<Trial>::try_from(ciphertext.as_ref()).unwrap();
    assert!(secret_key.is_zero_of(&public_key).unwrap());
    assert_eq!(secret_key.decrypt(&ciphertext).unwrap(), Message::<Trial>::try_from(message.as_ref()).unwrap());
    assert_eq!(Vec::from(ciphertext.clone()), ciphertext.as_ref());

    assert_eq!(Ciphertext::<Trial>::try_from(&[0; 3][..]), Err(Error::Length));
    assert_eq!(Ciphertext::<Unfit>::try_from(&[0; 192][..]).unwrap_err(), Error::Modulus);
}

enum SecondSupplier {}

impl FixedSet for SecondSupplier {
    const NUMBERS: [u32; 6] = Trial::NUMBERS;
    const EDITION: u32 = 2;
}

enum NoEdition {}

impl FixedSet for NoEdition {
    const NUMBERS: [u32; 6] = Trial::NUMBERS;
    const EDITION: u32 = 3;
}

#[test]
fn a_tag_names_its_edition() {
    assert_eq!(Parameters::<Trial>::fixed().unwrap().edition(), 1);
    let set = Parameters::<SecondSupplier>::fixed().unwrap();
    assert_eq!(set.any(), "16 52129279 8 1 1 16 2".parse().unwrap());
    let keys = set.keygen_from(Octets(5)).unwrap();
    let same = Parameters::<Trial>::fixed().unwrap().keygen_from(Octets(5)).unwrap();
    assert_eq!(keys.public_key.as_ref(), same.public_key.as_ref());
    assert!(keys.used.octets > same.used.octets);
    let public_key = PublicKey::<SecondSupplier>::try_from(same.public_key.as_ref()).unwrap();
    assert_eq!(public_key, keys.public_key);
    assert_eq!(Ciphertext::<NoEdition>::try_from(&[0; 192][..]).unwrap_err(), Error::Edition);
}

#[test]
fn with_a_tag_octets_alone_are_a_ring_element() {
    let octets = [[2, 0, 0, 0], [3, 0, 0, 0]].concat().repeat(4);
    let a = Element::<Trial>::try_from(&octets[..]).unwrap();
    assert_eq!(a.to_words(), [2, 3, 2, 3, 2, 3, 2, 3]);
    let mut c = Element::from_words(&Parameters::<Trial>::fixed().unwrap(), &[1; 8]).unwrap();
    c.multiply_add(&a, &a).unwrap();
    // Four times 2 × 2 + 3 × 3 and four times 2 × 3 + 3 × 2, and 1.
    assert_eq!(c.to_words(), [53, 49, 53, 49, 53, 49, 53, 49]);

    assert_eq!(Element::<Trial>::try_from(&octets[1..]), Err(Error::Length));
    assert_eq!(Element::<Trial>::try_from(&[0xFF; 32][..]), Err(Error::Coefficient));
    assert_eq!(Element::<Unfit>::try_from(&octets[..]), Err(Error::Modulus));
}

#[test]
fn debug_shows_some_words_of_an_element() {
    let set = Parameters::new(16, 52129279, 8, 1, 1, 16).unwrap();
    let shown = format!("{:?}", filled_element(&set, 7));
    assert_eq!(shown, "Element { set: 16 52129279 8 1 1 16, words: [7, 7, 7, 7, 7, 7, 7, 7] }");
    let set = Parameters::new(2, 2147483647, 30, 2, 1, 0).unwrap();
    let shown = format!("{:?}", filled_element(&set, 7));
    assert_eq!(shown, "Element { set: 2 2147483647 30 2 1 0, words: [7, 7, 7, 7, 7, 7, 7, 7].. (30 words) }");
}

#[test]
fn debug_prints_no_secret() {
    let set = Parameters::new(4, 65521, 2, 1, 1, 4).unwrap();
    let keys = set.keygen(&[0x0B; 100]).unwrap();
    let message = Message::from_counts(&set, &[2, 3]).unwrap();
    assert_eq!(format!("{:?}", keys.secret_key), "SecretKey { set: 4 65521 2 1 1 4, .. }");
    assert_eq!(format!("{message:?}"), "Message { set: 4 65521 2 1 1 4, .. }");
    let shown = format!("{keys:?}");
    assert!(shown.contains("SecretKey { set: 4 65521 2 1 1 4, .. }"), "{shown}");
    assert!(shown.contains("octets: 0B0B0B0B0B0B0B0B"), "{shown}");
}

#[test]
fn threads_share_a_key() {
    let set: Parameters = "16 2147483647 64 1 1 256".parse().unwrap();
    let keys = set.keygen_from(Octets(8)).unwrap();
    let counts = vec![3; 64];
    std::thread::scope(|scope| {
        for seed in 0..4 {
            let (keys, counts, set) = (&keys, &counts, &set);
            scope.spawn(move || {
                let message = Message::from_counts(set, counts).unwrap();
                let ciphertext = keys.public_key.encrypt_from(&message, Octets(seed)).unwrap().ciphertext;
                assert_eq!(&keys.secret_key.decrypt(&ciphertext).unwrap().to_counts(), counts);
            });
        }
    });
}
