//! The numbers printed in docs/GUIDE.md are those of the library.

use giophantus::{Ciphertext, Element, Error, Message, Parameters};

fn guide() -> String {
    let path = concat!(env!("CARGO_MANIFEST_DIR"), "/../docs/GUIDE.md");
    std::fs::read_to_string(path).unwrap_or_else(|error| panic!("{path}: {error}"))
}

/// The cells of the tables' rows, those of a table for each heading row that begins so.
fn rows(guide: &str, heading: &str) -> Vec<Vec<String>> {
    let lines = guide.lines().skip_while(|line| !line.starts_with(heading)).skip(2);
    let rows = lines.take_while(|line| line.starts_with('|'));
    rows.map(|line| line.trim_matches('|').split('|').map(|cell| cell.trim().to_owned()).collect()).collect()
}

fn number(cell: &str) -> u32 {
    cell.parse().unwrap_or_else(|_| panic!("`{cell}` is no number"))
}

#[test]
fn sets_and_sizes() {
    let guide = guide();
    let rows = rows(&guide, "| set:");
    assert!(rows.len() >= 10);
    for row in rows {
        let set: Parameters = row[0].trim_matches('`').parse().unwrap_or_else(|error| panic!("{}: {error}", row[0]));
        let expected = [
            set.counts_len(),
            set.bound() as usize,
            set.headroom() as usize,
            set.secret_key_len(),
            set.public_key_len(),
            set.message_len(),
            set.ciphertext_len(),
        ];
        assert_eq!(row[1..], expected.map(|value| value.to_string()), "{set}");
    }
}

#[test]
fn headroom_by_n() {
    let guide = guide();
    let rows = rows(&guide, "| n | ℓ = 2");
    assert_eq!(rows.len(), 12);
    for row in rows {
        for (cell, l) in row[1..].iter().zip([2, 4, 8, 16]) {
            let headroom = match Parameters::new(l, 2147483647, number(&row[0]), 1, 1, 0) {
                Ok(set) => set.headroom().to_string(),
                Err(error) => {
                    assert_eq!(error, Error::Modulus);
                    "-".to_owned()
                }
            };
            assert_eq!(*cell, headroom, "n {} l {l}", row[0]);
        }
    }
}

#[test]
fn largest_n() {
    let guide = guide();
    let rows = rows(&guide, "| D = dX + dr");
    assert_eq!(rows.len(), 3);
    for (row, (dx, dr)) in rows.iter().zip([(1, 1), (1, 2), (2, 2)]) {
        assert_eq!(number(&row[0]), dx + dr);
        for (cell, l) in row[1..].iter().zip([2, 4, 8, 16]) {
            let n = number(cell);
            assert!(Parameters::new(l, 2147483647, n, dx, dr, 0).is_ok());
            let next = Parameters::new(l, 2147483647, n + 1, dx, dr, 0).unwrap_err();
            assert_eq!(next, if n == 4096 { Error::Ring } else { Error::Modulus });
        }
    }
}

/// In their order.
#[test]
fn every_refusal_is_explained() {
    let guide = guide();
    let numbers: Vec<u32> = rows(&guide, "| number | given when").iter().map(|row| number(&row[0])).collect();
    let refusals: Vec<u32> = Error::REFUSALS.iter().filter_map(|refusal| refusal.number()).collect();
    assert_eq!(numbers, refusals);
}

/// The sets of the table of random octets, each with the other cells of its row.
fn random_rows() -> Vec<(Parameters, Vec<String>)> {
    let rows = rows(&guide(), "| under the set");
    assert!(rows.len() >= 5);
    rows.into_iter()
        .map(|mut row| {
            let line = row.remove(0);
            (line.trim_matches('`').parse().unwrap_or_else(|error| panic!("{line}: {error}")), row)
        })
        .collect()
}

/// The draws of a coefficient, for keys and for a ciphertext.
fn draws(set: &Parameters) -> [u32; 2] {
    let (n, dx, dr) = (set.n(), set.dx(), set.dr());
    let constant = if set.edition() == 2 { n } else { 0 };
    [((dx + 1) * (dx + 2) / 2 - 1) * n + constant, (dr + 1) * (dr + 2) / 2 * n]
}

/// How likely it is that a group is kept: q / 2^k, where q has k bits.
fn kept(set: &Parameters) -> f64 {
    let bits = u32::BITS - set.q().leading_zeros();
    f64::from(set.q()) / (1u64 << bits) as f64
}

/// The groups dropped on average.
fn average(draws: u32, kept: f64) -> f64 {
    f64::from(draws) * (1.0 / kept - 1.0)
}

/// The groups to provide besides the fixed part.
fn groups_to_provide(draws: u32, kept: f64) -> u32 {
    (2.0 * average(draws, kept) + 30.0).ceil() as u32
}

/// The groups of a call dropped on average, and the octets to provide besides those of elements.
fn group_cells(set: &Parameters, fixed: usize, draws: u32) -> (String, usize) {
    let kept = kept(set);
    let provided = fixed + set.coefficient_len() * groups_to_provide(draws, kept) as usize;
    (format!("{:.1}", average(draws, kept)), provided)
}

/// How likely it is that an element of a secret key is kept.
fn kept_element(l: u32) -> f64 {
    1.0 - 1.0 / f64::from(l)
}

/// The elements to provide besides the two that are kept.
fn elements_to_provide(l: u32) -> u32 {
    30u32.div_ceil(l.ilog2())
}

#[test]
fn random_octets() {
    for (set, cells) in random_rows() {
        // Groups of zeros are never dropped, and elements of ones aren't.
        let zeros = vec![0; 1 << 16];
        let keys = set.keygen(&[&vec![0xFF; set.secret_key_len()], &zeros[..]].concat()).unwrap();
        let message = Message::from_counts(&set, &vec![0; set.counts_len()]).unwrap();
        let encrypted = keys.public_key.encrypt(&message, &zeros).unwrap();
        let [for_keys, for_ciphertext] = draws(&set);
        let (groups, provided) = group_cells(&set, keys.used.octets, for_keys);
        let provided = provided + set.small_len() * elements_to_provide(set.l()) as usize;
        let elements = format!("{:.2}", average(2, kept_element(set.l())));
        let mut expected = vec![keys.used.octets.to_string(), groups, elements, provided.to_string()];
        let (groups, provided) = group_cells(&set, encrypted.used.octets, for_ciphertext);
        expected.extend([encrypted.used.octets.to_string(), groups, provided.to_string()]);
        assert_eq!(cells, expected, "{set}");
    }
}

/// As the program says them: tests/cli.rs.
#[test]
fn the_lines_about_random_octets_add_up() {
    let guide = guide();
    let set: Parameters = "4 1459 2 1 1 4".parse().unwrap();
    let keys = set.keygen(&[3, 9, 4, 5, 0, 7, 0, 0xB3, 5, 0x64, 0, 1, 0]).unwrap();
    let (octets, groups, elements) = (keys.used.octets, keys.used.dropped_groups, keys.used.dropped_elements);
    assert_eq!((groups, elements), (1, 1));
    assert!(
        guide.contains(&format!("{octets} random octets used, 1 group of 2 octets and 1 element of 1 octet dropped"))
    );
    assert!(guide.contains(&format!("{octets} = {} + 2 × 1 + 1 × 1,", set.keygen_fixed_octets())));
    let fixed = set.encryption_fixed_octets();
    assert!(guide.contains(&format!("{} = {fixed} + 2 × 1.", fixed + 2)));
}

#[test]
fn lines_of_six_and_of_seven_numbers() {
    let rows = rows(&guide(), "| line | roomsheet's answer");
    assert!(rows.len() >= 9);
    for row in rows {
        let answer = match row[0].trim_matches('`').parse::<Parameters>() {
            Ok(set) => format!("`0 {} {}`", set.bound(), set.headroom()),
            Err(error) => format!("`{}`", error.number().unwrap()),
        };
        assert_eq!(row[1], answer, "{}", row[0]);
    }
}

/// The octets that the guide writes in hexadecimal between these words.
fn octets_between(guide: &str, before: &str, after: &str) -> Vec<u8> {
    let (_, rest) = guide.split_once(before).unwrap_or_else(|| panic!("`{before}` is missing"));
    let (octets, _) = rest.split_once(after).unwrap_or_else(|| panic!("`{after}` is missing"));
    octets.split_whitespace().map(|octet| u8::from_str_radix(octet, 16).unwrap()).collect()
}

#[test]
fn the_second_supplier() {
    let guide = guide();
    let first: Parameters = "4 1459 2 1 1 4".parse().unwrap();
    let second = first.with_edition(2).unwrap();
    let mut random = octets_between(&guide, "the octets `", "` give keys in edition 1");
    assert_eq!(first.keygen(&random).unwrap().used.octets, random.len());
    assert_eq!(second.keygen(&random).unwrap_err().number(), Some(9));
    random.extend(octets_between(&guide, "With\n`", "` behind them"));
    let [one, two] = [first, second].map(|set| set.keygen(&random).unwrap());
    assert_eq!(one.public_key.as_ref(), two.public_key.as_ref());
    assert_eq!(one.secret_key.as_ref(), two.secret_key.as_ref());
    assert_eq!((two.used.dropped_groups, two.used.dropped_elements), (1, 0));
    let (octets, fixed) = (two.used.octets, second.keygen_fixed_octets());
    assert!(guide
        .contains(&format!("Edition 1 uses {} octets; edition 2 uses {octets} = {fixed} + 2 × 1,", one.used.octets)));
}

/// How many elements of a secret key are dropped on average, and how many secret keys of before have one.
#[test]
fn elements_by_l() {
    let guide = guide();
    let [two, four, eight, sixteen] = [2, 4, 8, 16].map(|l| average(2, kept_element(l)));
    assert!(guide.contains(&format!("{two}, {four:.2}, {eight:.2} and {sixteen:.2} for ℓ = 2, 4, 8 and 16")));
    let [two, four, eight, sixteen] = [2, 4, 8, 16].map(|l| 100.0 * (1.0 - kept_element(l).powi(2)));
    assert!(guide
        .contains(&format!("{two:.0}, {four:.0}, {eight:.0} and {sixteen:.0} in 100 of them for ℓ = 2, 4, 8 and 16")));
}

/// How likely it is that fewer groups than draws are kept, where each is kept with this probability.
fn exhausted(draws: u32, groups: u32, kept: f64) -> f64 {
    let [most, rest] = [draws - 1, groups - draws + 1].map(f64::from);
    let ways: f64 = (1..draws).map(|i| (rest / f64::from(i)).ln_1p()).sum();
    let mut exactly = (ways + most * kept.ln() + rest * (1.0 - kept).ln()).exp();
    let mut sum = 0.0;
    for number in (0..draws).rev() {
        sum += exactly;
        exactly *= f64::from(number) / f64::from(groups - number + 1) * (1.0 - kept) / kept;
    }
    sum
}

/// Fewer than one call in ten million is refused with 9. A group is kept with probability a half or more. Tried for up to
/// 400 draws and for those of the table's rows, with each percentage and with the rows' own probabilities; elements may be
/// the fault as well.
#[test]
fn the_octets_to_provide_suffice() {
    assert!((exhausted(2, 3, 0.5) - 0.5).abs() < 1e-9);
    let elements = [2, 4, 8, 16].map(|l| exhausted(2, 2 + elements_to_provide(l), kept_element(l)));
    let elements = elements.into_iter().fold(0.0, f64::max);
    let sets: Vec<Parameters> = random_rows().into_iter().map(|(set, _)| set).collect();
    for draws in (4..=400).chain(sets.iter().flat_map(draws)) {
        let percentages = (50..100).map(|percent| f64::from(percent) / 100.0);
        for kept in percentages.chain(sets.iter().map(kept)) {
            let groups = draws + groups_to_provide(draws, kept);
            assert!(elements + exhausted(draws, groups, kept) < 1e-7, "{draws} draws, {kept}");
        }
    }
}

#[test]
fn a_product_in_the_ring() {
    let guide = guide();
    let set: Parameters = "4 1459 2 1 1 4".parse().unwrap();
    let [a, b] = [[1, 2], [5, 7]].map(|words| Element::from_words(&set, &words).unwrap());
    let mut c = Element::zero(&set);
    c.multiply_add(&a, &b).unwrap();
    let [first, second] = c.as_ref() else { panic!("n is 2") };
    assert!(guide.contains(&format!("(1 + 2t) × (5 + 7t) = {first} + {second}t")));
    assert!(guide.contains(&format!(" # prints {first} {second}\n")));
}

/// Larger counts over several places: five laboratories, base 4, four digits each.
#[test]
fn larger_counts_over_several_places() {
    let set: Parameters = "16 2147483647 4 1 1 16".parse().unwrap();
    let counts = [255u32, 0, 17, 128, 99];
    let base = (set.l() - 1) / counts.len() as u32 + 1;
    assert_eq!(base, 4);
    let keys = set.keygen(&[0x3C; 99]).unwrap();
    let ciphertexts: Vec<Ciphertext> = (0u8..)
        .zip(counts)
        .map(|(laboratory, count)| {
            let digits: Vec<u32> = (0..4).map(|i| count / base.pow(i) % base).collect();
            let message = Message::from_counts(&set, &digits).unwrap();
            keys.public_key.encrypt(&message, &[laboratory; 99]).unwrap().ciphertext
        })
        .collect();
    let sum = Ciphertext::try_sum(&ciphertexts).unwrap().unwrap();
    let digits = keys.secret_key.decrypt(&sum).unwrap().to_counts();
    let total: u32 = (0..).zip(digits).map(|(i, digit)| digit * base.pow(i)).sum();
    assert_eq!(total, counts.iter().sum::<u32>());
}

/// With that base no digit's total reaches l, for every l and number of summands.
#[test]
fn digits_never_wrap() {
    for l in [2u32, 4, 8, 16] {
        for summands in 1..l {
            let base = (l - 1) / summands + 1;
            assert!(base >= 2 && summands * (base - 1) < l);
        }
    }
}
