//! The worked list, as far as this interface reaches it: cases 1 to 11, and roomsheet's lines.

use giophantus::{Ciphertext, Element, Error, Message, Parameters, PublicKey, SecretKey};

const KEY_RANDOM: [u8; 10] = [0x09, 0x04, 0x05, 0x00, 0x07, 0x00, 0x64, 0x00, 0x01, 0x00];
const SECRET_KEY: [u8; 2] = [0x09, 0x04];
const PUBLIC_KEY: [u8; 12] = [0x05, 0x00, 0x07, 0x00, 0x64, 0x00, 0x01, 0x00, 0x9F, 0x05, 0x3E, 0x05];
const RANDOM: [u8; 18] =
    [0x01, 0x00, 0x00, 0x00, 0x00, 0x00, 0x00, 0x00, 0x00, 0x00, 0x01, 0x00, 0x01, 0x00, 0x08, 0x0F, 0x00, 0x09];
const CIPHERTEXT: [u8; 24] = [
    0x09, 0x00, 0x07, 0x00, 0x64, 0x00, 0x01, 0x00, 0x00, 0x00, 0x08, 0x00, 0xB2, 0x05, 0x4F, 0x05, 0x01, 0x00, 0x64,
    0x00, 0x44, 0x05, 0xAA, 0x05,
];

/// Set A.
fn set() -> Parameters {
    Parameters::new(4, 1459, 2, 1, 1, 4).unwrap()
}

fn secret_key(set: &Parameters) -> SecretKey {
    SecretKey::try_from((set, &SECRET_KEY[..])).unwrap()
}

fn public_key() -> PublicKey {
    PublicKey::try_from((&set(), &PUBLIC_KEY[..])).unwrap()
}

fn message() -> Message {
    Message::try_from((&set(), &[0x0E][..])).unwrap()
}

/// (1 + 2t) × (5 + 7t) = 19 + 17t, by words and by octets.
#[test]
fn case_1_product() {
    let set = set();
    let a = Element::from_words(&set, &[1, 2]).unwrap();
    let b = Element::try_from((&set, &[5, 0, 7, 0][..])).unwrap();
    let mut c = Element::zero(&set);
    c.multiply_add(&a, &b).unwrap();
    assert_eq!(c.to_words(), [19, 17]);
    assert_eq!(c.to_octets(), [19, 0, 17, 0]);
    assert_eq!((a.to_words(), b.to_words()), (vec![1, 2], vec![5, 7]));
}

#[test]
fn case_2_keys() {
    let keys = set().keygen(&KEY_RANDOM).unwrap();
    assert_eq!(keys.secret_key.as_ref(), SECRET_KEY);
    assert_eq!(keys.public_key.as_ref(), PUBLIC_KEY);
    assert_eq!((keys.used.octets, keys.used.dropped_groups, keys.used.dropped_elements), (10, 0, 0));
    assert!(keys.secret_key.is_zero_of(&keys.public_key).unwrap());
    assert_eq!(keys.secret_key.to_words(), [1, 2, 0, 1]);
    assert_eq!(keys.public_key.to_words(), [5, 7, 100, 1, 1439, 1342]);
}

/// Case 2 in edition 2: the octets of case 2 alone don't suffice. With more behind them, among which 1459 is dropped, the
/// keys are the same.
#[test]
fn case_2_in_edition_2() {
    let second = set().with_edition(2).unwrap();
    let random = [&KEY_RANDOM[..], &[0xB3, 0x05, 0x01, 0x00, 0x02, 0x00]].concat();
    for len in KEY_RANDOM.len()..random.len() {
        assert_eq!(second.keygen(&random[..len]).unwrap_err(), Error::RandomExhausted);
        assert_eq!(second.keygen_from(&random[..len]).unwrap_err(), Error::RandomExhausted);
    }
    for keys in [second.keygen(&random), second.keygen_from(&random[..])] {
        let keys = keys.unwrap();
        assert_eq!((keys.secret_key.as_ref(), keys.public_key.as_ref()), (&SECRET_KEY[..], &PUBLIC_KEY[..]));
        assert_eq!((keys.used.octets, keys.used.dropped_groups, keys.used.dropped_elements), (16, 1, 0));
        assert!(keys.secret_key.is_zero_of(&keys.public_key).unwrap());
    }
    let used = set().keygen(&random).unwrap().used;
    assert_eq!((used.octets, used.dropped_groups, used.dropped_elements), (10, 0, 0));
}

#[test]
fn case_3_encryption() {
    let encrypted = public_key().encrypt(&message(), &RANDOM).unwrap();
    assert_eq!(encrypted.ciphertext.as_ref(), CIPHERTEXT);
    assert_eq!((encrypted.used.octets, encrypted.used.dropped_groups), (18, 0));
    assert_eq!(message().to_counts(), [2, 3]);
}

#[test]
fn case_4_decryption() {
    let ciphertext = Ciphertext::try_from((&set(), &CIPHERTEXT[..])).unwrap();
    assert_eq!(secret_key(&set()).decrypt(&ciphertext).unwrap().as_ref(), [0x0E]);

    let shorter = Parameters::new(4, 1459, 2, 1, 1, 2).unwrap();
    let ciphertext = Ciphertext::try_from((&shorter, &CIPHERTEXT[..])).unwrap();
    assert_eq!(secret_key(&shorter).decrypt(&ciphertext), Err(Error::Tail));
}

#[test]
fn case_5_draws() {
    let mut reduced = RANDOM;
    reduced[..2].copy_from_slice(&[0x01, 0x08]);
    let encrypted = public_key().encrypt(&message(), &reduced).unwrap();
    assert_eq!(encrypted.ciphertext.as_ref(), CIPHERTEXT);
    assert_eq!((encrypted.used.octets, encrypted.used.dropped_groups), (18, 0));

    let dropped = [&[0xB3, 0x05], &RANDOM[..]].concat();
    for encrypted in [public_key().encrypt(&message(), &dropped), public_key().encrypt_from(&message(), &dropped[..])] {
        let encrypted = encrypted.unwrap();
        assert_eq!(encrypted.ciphertext.as_ref(), CIPHERTEXT);
        assert_eq!((encrypted.used.octets, encrypted.used.dropped_groups), (20, 1));
    }
}

/// 1459 in front of every draw: all are dropped, and one behind the last draw isn't counted.
#[test]
fn case_5_dropped_in_front_of_every_draw() {
    let dropped =
        |groups: &[u8]| groups.chunks(2).flat_map(|group| [&[0xB3, 0x05], group].concat()).collect::<Vec<_>>();
    let random = [&KEY_RANDOM[..2], &dropped(&KEY_RANDOM[2..]), &[0xB3, 0x05]].concat();
    let keys = set().keygen(&random).unwrap();
    assert_eq!((keys.secret_key.as_ref(), keys.public_key.as_ref()), (&SECRET_KEY[..], &PUBLIC_KEY[..]));
    assert_eq!((keys.used.octets, keys.used.dropped_groups), (18, 4));

    let random = [&dropped(&RANDOM[..12])[..], &RANDOM[12..], &[0xB3, 0x05]].concat();
    let encrypted = public_key().encrypt(&message(), &random).unwrap();
    assert_eq!(encrypted.ciphertext.as_ref(), CIPHERTEXT);
    assert_eq!((encrypted.used.octets, encrypted.used.dropped_groups), (30, 6));
}

/// Case 2 with elements that are dropped in front of u_x and of u_y, and one behind the last draw, which isn't counted.
#[test]
fn case_2_with_dropped_elements() {
    let random = [&[0x00, 0x03, 0x09, 0xF1, 0x04], &KEY_RANDOM[2..], &[0x00]].concat();
    for keys in [set().keygen(&random), set().keygen_from(&random[..])] {
        let keys = keys.unwrap();
        assert_eq!((keys.secret_key.as_ref(), keys.public_key.as_ref()), (&SECRET_KEY[..], &PUBLIC_KEY[..]));
        assert_eq!((keys.used.octets, keys.used.dropped_groups, keys.used.dropped_elements), (13, 0, 3));
    }
    assert_eq!(set().keygen(&random[..12]).unwrap_err(), Error::RandomExhausted);
}

#[test]
fn case_6_exhausted() {
    assert_eq!(public_key().encrypt(&message(), &RANDOM[..17]).unwrap_err(), Error::RandomExhausted);
    let dropped = [&[0xB3, 0x05], &RANDOM[..17]].concat();
    assert_eq!(public_key().encrypt(&message(), &dropped).unwrap_err(), Error::RandomExhausted);
    assert_eq!(set().keygen(&KEY_RANDOM[..9]).unwrap_err(), Error::RandomExhausted);
    assert_eq!(set().keygen_from(&KEY_RANDOM[..9]).unwrap_err(), Error::RandomExhausted);
}

#[test]
fn case_7_coefficients_and_padding() {
    let mut octets = PUBLIC_KEY;
    octets[..2].copy_from_slice(&1458u16.to_le_bytes());
    assert!(PublicKey::try_from((&set(), &octets[..])).is_ok());
    octets[..2].copy_from_slice(&1459u16.to_le_bytes());
    assert_eq!(PublicKey::try_from((&set(), &octets[..])), Err(Error::Coefficient));
    assert_eq!(Message::try_from((&set(), &[0x1E][..])), Err(Error::Padding));
}

/// w is B = 1455 at both places.
#[test]
fn case_8_the_bound_is_reached() {
    let set = set();
    let keys = set.keygen(&[0x0F, 0x0F, 0, 0, 0, 0, 0, 0, 0, 0]).unwrap();
    assert_eq!(keys.public_key.to_words(), [0; 6]);
    let message = Message::from_counts(&set, &[3, 3]).unwrap();
    let random = [[0; 12].as_slice(), &[0x0F; 6]].concat();
    let ciphertext = keys.public_key.encrypt(&message, &random).unwrap().ciphertext;
    assert_eq!(keys.secret_key.decrypt(&ciphertext).unwrap().to_counts(), [3, 3]);
    // Twice as much passes q: what comes out is wrong, and nothing refuses it.
    let past = (&ciphertext + &ciphertext).unwrap();
    assert!(!set.is_within_headroom(2));
    assert_eq!(keys.secret_key.decrypt(&past).unwrap().to_counts(), [3, 3]);
    assert_ne!([(3 + 3) % set.l(); 2], [3, 3]);
}

#[test]
fn case_9_no_message_bits() {
    let blank = Parameters::new(4, 1459, 2, 1, 1, 0).unwrap();
    let keys = blank.keygen(&KEY_RANDOM).unwrap();
    let message = Message::try_from((&blank, &[][..])).unwrap();
    let encrypted = keys.public_key.encrypt(&message, &RANDOM).unwrap();
    assert_eq!((encrypted.used.octets, encrypted.used.dropped_groups), (18, 0));
    let decrypted = keys.secret_key.decrypt(&encrypted.ciphertext).unwrap();
    assert!(decrypted.is_blank() && decrypted.as_ref().is_empty() && decrypted.to_counts().is_empty());

    assert_eq!(Parameters::new(4, 1459, 2, 1, 1, 3), Err(Error::MessageSize));
}

#[test]
fn case_10_largest_n() {
    assert!(Parameters::new(2, 100679684, 4096, 1, 1, 0).is_ok());
    assert_eq!(Parameters::new(2, 100679683, 4096, 1, 1, 0), Err(Error::Modulus));
    assert_eq!(Parameters::new(16, 2147483647, 4096, 2, 2, 0), Err(Error::Modulus));
}

#[test]
fn case_11_a_printed_modulus_equals_its_bound() {
    assert_eq!(Parameters::new(4, 467424411, 1201, 1, 1, 0), Err(Error::Modulus));
    assert_eq!(Parameters::new(4, 467424412, 1201, 1, 1, 0).unwrap().bound(), 467424411);
}

#[test]
fn roomsheet_lines() {
    let answer = |line: &str| match line.parse::<Parameters>() {
        Ok(set) => format!("0 {} {}", set.bound(), set.headroom()),
        Err(error) => error.number().unwrap().to_string(),
    };
    assert_eq!(answer("4 1459 2 1 1 4"), "0 1455 1");
    assert_eq!(answer("4 1455 2 1 1 4"), "4");
    assert_eq!(answer("4 65521 2 1 1 4"), "0 1455 45");
    assert_eq!(answer("4 1459 2 1 1"), "11");
    // q = 2B has headroom 1, since s x B must stay below q.
    assert_eq!(answer("4 2910 2 1 1 4"), "0 1455 1");
    // The edition is a seventh number.
    assert_eq!(answer("4 1459 2 1 1 4 1"), "0 1455 1");
    assert_eq!(answer("4 1459 2 1 1 4 2"), "0 1455 1");
    assert_eq!(answer("4 1459 2 1 1 4 0"), "18");
    assert_eq!(answer("4 1459 2 1 1 4 3"), "18");
    assert_eq!(answer("4 1455 2 1 1 4 3"), "4");
    assert_eq!(answer("4 1459 2 1 1 3 3"), "5");
    assert_eq!(answer("4 1459 2 1 1 4 01"), "11");
    assert_eq!(answer("4 1459 2 1 1 4 1 1"), "11");
}
