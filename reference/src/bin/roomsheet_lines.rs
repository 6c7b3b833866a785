//! Prints a fixed list of input lines for roomsheet: both sides of every limit, several refusals
//! together, malformed lines of every kind, random sets, without an edition and with one (02, Q-7);
//! the last line has no newline.

use std::io::{self, Write};

use reference::prng::Prng;
use reference::set::bound;

const MOST_Q: u128 = 2_147_483_647;
const SMALL: [(u32, u32); 4] = [(2, 1), (4, 2), (8, 3), (16, 4)];
const DEGREES: [(u32, u32); 4] = [(1, 1), (1, 2), (2, 1), (2, 2)];

/// Editions of 1 and 2, both sides of them, and those that are 1 or 2 in fewer bits.
const EDITIONS: [u32; 16] = [
    0,
    1,
    2,
    3,
    4,
    10,
    255,
    256,
    257,
    258,
    65_537,
    65_538,
    (1 << 31) + 1,
    (1 << 31) + 2,
    u32::MAX - 1,
    u32::MAX,
];

/// Well-formed lines, without an edition and with one.
const WELL_FORMED: [&str; 2] = ["4 1459 2 1 1 4", "4 1459 2 1 1 4 2"];

/// The lines so far, without their newlines.
struct Lines(Vec<Vec<u8>>);

impl Lines {
    fn octets(&mut self, line: &[u8]) {
        assert!(!line.contains(&b'\n'));
        self.0.push(line.to_vec());
    }

    fn text(&mut self, line: &str) {
        self.octets(line.as_bytes());
    }

    fn set(&mut self, l: u32, q: u128, n: u32, dx: u32, dr: u32, mlen: u32) {
        self.text(&format!("{l} {q} {n} {dx} {dr} {mlen}"));
    }

    /// The last line again, once with each of these editions as a further number.
    fn in_editions(&mut self, editions: &[u32]) {
        let line = self.0.last().expect("a line").clone();
        for edition in editions {
            self.octets(&[&line[..], format!(" {edition}").as_bytes()].concat());
        }
    }
}

/// The largest n up to 4,096 for which some q is accepted.
fn largest_n(l: u32, d: u32) -> u32 {
    let mut n = 2;
    while n < 4096 && bound(l, n + 1, d) < MOST_Q {
        n += 1;
    }
    assert!(bound(l, n, d) < MOST_Q);
    n
}

/// Lines that document 01 prints or describes, and lines with the edition of 02's Q-7.
fn worked(out: &mut Lines) {
    for line in [
        "4 1459 2 1 1 4",
        "4 1455 2 1 1 4",
        "4 65521 2 1 1 4",
        "4 1459 2 1 1",
        "4 2909 2 1 1 4",
        "4 2910 2 1 1 4",
        "4 2911 2 1 1 4",
        "4 1459 2 1 1 0",
        "4 1459 2 1 1 2",
        "4 1459 2 1 1 3",
        "4 1459 2 1 1 5",
        "4 1459 2 1 1 6",
        "2 100679684 4096 1 1 0",
        "2 100679683 4096 1 1 0",
        "2 100679682 4096 1 1 0",
        "16 2147483647 4096 2 2 0",
        "4 467424411 1201 1 1 0",
        "4 467424411 1201 1 1 2402",
        "4 467424412 1201 1 1 2402",
        "4 467424413 1201 1 1 2402",
        "4 1459 2 1 1 4 0",
        "4 1459 2 1 1 4 1",
        "4 1459 2 1 1 4 2",
        "4 1459 2 1 1 4 3",
        "4 1459 2 1 1 4 01",
        "4 1459 2 1 1 4 1 1",
        "4 1455 2 1 1 4 3",
        "4 1459 2 1 1 3 3",
        "4 65521 2 1 1 4 2",
    ] {
        out.text(line);
    }
}

/// q at both sides of the bound and of its double.
fn near_the_bound(out: &mut Lines) {
    for (l, b) in SMALL {
        for (dx, dr) in DEGREES {
            let largest = largest_n(l, dx + dr);
            for n in [2, 3, 7, largest, largest + 1] {
                let at = bound(l, n, dx + dr);
                for q in [at - 1, at, at + 1, 2 * at - 1, 2 * at, 2 * at + 1] {
                    out.set(l, q, n, dx, dr, n * b);
                }
            }
        }
    }
}

/// q at both sides of its own limit and of fractions of it.
fn limits_of_q(out: &mut Lines) {
    for (l, b) in SMALL {
        for (n, dx, dr) in [(2, 1, 1), (2, 2, 2), (9, 1, 1)] {
            let at = bound(l, n, dx + dr);
            let mut list = vec![0, 1, 2, 4_294_967_294, 4_294_967_295, 4_294_967_296];
            for middle in [MOST_Q / 8, u128::from(u32::MAX) / 6, MOST_Q] {
                list.extend(middle - 1..=middle + 2);
            }
            // The last multiples of the bound that q can pass.
            let s = MOST_Q / at;
            list.extend([s * at, s * at + 1]);
            for q in list {
                out.set(l, q, n, dx, dr, b);
            }
        }
    }
}

/// Sets whose bound passes 32 bits but is small modulo 2^32.
fn bounds_that_must_not_wrap(out: &mut Lines) {
    for (l, _) in SMALL {
        for (dx, dr) in DEGREES {
            let mut lowest: Vec<(u128, u32)> = (2..=4096)
                .map(|n| (bound(l, n, dx + dr), n))
                .filter(|(at, _)| *at > u128::from(u32::MAX))
                .map(|(at, n)| (at % (1 << 32), n))
                .collect();
            lowest.sort_unstable();
            for (_, n) in lowest.into_iter().take(6) {
                out.set(l, MOST_Q, n, dx, dr, 0);
            }
            out.set(l, MOST_Q, 4096, dx, dr, 0);
        }
    }
}

/// l, n, dX, dr and mlen at both sides of their limits.
fn limits_of_the_others(out: &mut Lines) {
    for l in (0..=17).chain([31, 32, 64, 256, 258, 65_538, 65_540, 1 << 31, u32::MAX]) {
        out.set(l, MOST_Q, 2, 1, 1, 0);
        out.set(l, MOST_Q, 2, 1, 1, 12);
    }
    for (l, b) in SMALL {
        for n in [0, 1, 2, 3, 4095, 4096, 4097, 65_538, 1 << 31, u32::MAX] {
            out.set(l, MOST_Q, n, 1, 1, 0);
            out.set(l, MOST_Q, n, 2, 1, b);
        }
        for dx in 0..=3 {
            for dr in 0..=3 {
                out.set(l, MOST_Q, 2, dx, dr, b);
            }
        }
        out.set(l, MOST_Q, 2, u32::MAX, 1, b);
        out.set(l, MOST_Q, 2, 1, u32::MAX, b);
        // The two degrees add up to what is allowed, with or without wrapping.
        out.set(l, MOST_Q, 2, u32::MAX, 3, b);
        out.set(l, MOST_Q, 2, 3, u32::MAX, b);
        for n in [2, 5, 8, largest_n(l, 2)] {
            let whole = n * b;
            let mut list = vec![0, 1, 2, 3, 4, whole - b, whole - 1, whole, whole + 1];
            list.extend([whole + b - 1, whole + b, 2 * whole, 65_536, 1 << 31]);
            list.extend([u32::MAX - 3, u32::MAX - 1, u32::MAX]);
            for mlen in list {
                out.set(l, MOST_Q, n, 1, 1, mlen);
            }
        }
    }
}

/// Right and wrong editions of sets that are accepted, and of sets with q or mlen just refused.
fn limits_of_the_edition(out: &mut Lines) {
    for (l, b) in SMALL {
        for (dx, dr) in [(1, 1), (2, 2)] {
            let at = bound(l, 2, dx + dr);
            for (q, mlen) in [(at + 1, 2 * b), (at, 2 * b), (at + 1, 2 * b + 1)] {
                out.set(l, q, 2, dx, dr, mlen);
                out.in_editions(&EDITIONS);
            }
        }
    }
}

/// Every combination of the refusals 1 to 5, in four ways, without an edition, with both and with
/// a wrong one.
fn several_refusals(out: &mut Lines) {
    for mask in 0..32u32 {
        for way in 0..4usize {
            let bad = |number: u32| mask >> (number - 1) & 1 == 1;
            let (mut l, b) = SMALL[way];
            let (mut n, mut dx, mut dr) = (2, 1, 1);
            let at = bound(l, n, dx + dr);
            let mut q = at + 1;
            let mut mlen = n * b;
            if bad(1) {
                l = [0, 3, 17, u32::MAX][way];
            }
            if bad(2) {
                n = [0, 1, 4097, u32::MAX][way];
            }
            if bad(3) {
                (dx, dr) = [(0, 1), (1, 0), (3, 2), (u32::MAX, u32::MAX)][way];
            }
            if bad(4) {
                q = [0, at, MOST_Q + 1, u128::from(u32::MAX)][way];
            }
            if bad(5) {
                mlen = [3, 3, 7, u32::MAX][way];
            }
            out.set(l, q, n, dx, dr, mlen);
            out.in_editions(&[1, 2, [0, 3, 257, u32::MAX][way]]);
        }
    }
}

/// Fields that are no number, or that are another number than the line's own.
const OTHER_FIELDS: [&str; 22] = [
    "",
    "a",
    "Z",
    "-",
    "+",
    "-0",
    "+0",
    "00",
    "01",
    "000",
    "0000000000",
    "0",
    "10",
    "4294967295",
    "4294967296",
    "4294967300",
    "9999999999",
    "10000000000",
    "99999999999",
    "18446744073709551615",
    "18446744073709551616",
    "9999999999999999999999999999999999999999",
];

/// A number written wrongly, and with a power of two added.
fn misspelt(value: &str) -> Vec<String> {
    let number: u128 = value.parse().expect("a number");
    let mut fields = vec![
        (number + (1 << 32)).to_string(),
        (number + (1 << 64)).to_string(),
        // 2^128 + number.
        format!("3402823669209384634633746074317{}", 68_211_456 + number),
        format!("{value:0>40}"),
    ];
    for before in [
        "+", "-", "0", "00", "a", "0x", "_", "\t", "\0", "\u{ff14}", "\u{feff}",
    ] {
        fields.push(format!("{before}{value}"));
    }
    for after in [
        "a", ".0", "e0", "u", ",", "/", ":", "\t", "\r", "\0", "\u{b2}", "\u{a0}",
    ] {
        fields.push(format!("{value}{after}"));
    }
    fields
}

/// A well-formed line with each of its fields replaced.
fn malformed_fields(out: &mut Lines, line: &str) {
    let good: Vec<&[u8]> = line.split(' ').map(str::as_bytes).collect();
    for (at, value) in line.split(' ').enumerate() {
        let mut others: Vec<Vec<u8>> = Vec::new();
        others.extend(misspelt(value).into_iter().map(String::into_bytes));
        others.extend(OTHER_FIELDS.map(|field| field.as_bytes().to_vec()));
        others.extend([0, 1, 11, 12, 127, 128, 160, 176, 180, 255].map(|octet| vec![octet]));
        for other in &others {
            let mut fields = good.clone();
            fields[at] = other;
            out.octets(&fields.join(&b' '));
        }
    }
}

/// A well-formed line with each of its spaces replaced.
fn malformed_separators(out: &mut Lines, line: &str) {
    let separators: [&[u8]; 14] = [
        b"",
        b"  ",
        b"   ",
        b"\t",
        b" \t",
        b"\t ",
        b"\r",
        b"\0",
        b",",
        b", ",
        b"\x0b",
        b"\x0c",
        b"\xa0",
        b"\xc2\xa0",
    ];
    for (at, _) in line.match_indices(' ') {
        let (before, after) = (&line.as_bytes()[..at], &line.as_bytes()[at + 1..]);
        for separator in separators {
            out.octets(&[before, separator, after].concat());
        }
    }
}

/// Lines with too few or too many fields, with spaces around them, and no numbers at all.
const OTHER_LINES: [&str; 64] = [
    "",
    " ",
    "  ",
    "     ",
    "      ",
    "\t",
    "\r",
    "\0",
    "0",
    "4",
    "4 ",
    " 4",
    "4 1459",
    "4 1459 2",
    "4 1459 2 1",
    "4 1459 2 1 ",
    "4 1459 2 1 1 ",
    "4 1459 2 1 1  ",
    " 4 1459 2 1 1",
    " 1459 2 1 1 4",
    " 4 1459 2 1 1 4",
    "  4 1459 2 1 1 4",
    "4 1459 2 1 1 4 ",
    "4 1459 2 1 1 4  ",
    " 4 1459 2 1 1 4 ",
    "4 1459 2 1 1 4\r",
    "4 1459 2 1 1 4\t",
    "4 1459 2 1 1 4 4",
    "4 1459 2 1 1 4 x",
    "4 1459 2 1 1 4 # a note",
    "4 1459 2 1 1 4 4 1459 2 1 1 4",
    // An edition with spaces around it, and further numbers after it.
    "4 1459 2 1 1 4  1",
    "4 1459 2 1 1 4 2 ",
    "4 1459 2 1 1 4 2  ",
    " 4 1459 2 1 1 4 2",
    "4 1459 2 1 1 4 2\r",
    "4 1459 2 1 1 4 2 2",
    "4 1459 2 1 1 4 0 0",
    "4 1459 2 1 1 4 3 1",
    "4 1459 2 1 1 4 2 1 1",
    "4 1459 2 1 1 4 2 x",
    "4 1459 2 1 1 4 2 # a note",
    "1 4 1459 2 1 1 4",
    "4 1459 2 1 1 2",
    "0 0 0 0 0 0",
    "0 0 0 0 0",
    "0 0 0 0 0 0 0",
    "0 0 0 0 0 0 0 0",
    "4294967295 4294967295 4294967295 4294967295 4294967295 4294967295",
    "4294967296 4294967296 4294967296 4294967296 4294967296 4294967296",
    "4294967295 4294967295 4294967295 4294967295 4294967295 4294967295 4294967295",
    "4294967295 4294967295 4294967295 4294967295 4294967295 4294967295 4294967296",
    // Malformed, and refused by every number of the set as well.
    "3 0 0 0 0 01",
    "03 0 1 3 3 5",
    "17 0 4097 3 0",
    "3 0 0 3 3 1 03",
    "03 0 1 3 3 5 3",
    "3 0 0 3 3 1 3 0",
    "l q n dX dr mlen",
    "l q n dX dr mlen edition",
    "l=4 q=1459 n=2 dX=1 dr=1 mlen=4",
    "\"4 1459 2 1 1 4\"",
    "4;1459;2;1;1;4",
    "4;1459;2;1;1;4;2",
];

/// Every octet but the newline, before and after a well-formed line, and inside.
fn every_octet(out: &mut Lines) {
    for octet in (0..=255u8).filter(|&octet| octet != b'\n') {
        for line in WELL_FORMED.map(str::as_bytes) {
            out.octets(&[&[octet], line].concat());
            out.octets(&[line, &[octet]].concat());
        }
        out.octets(&[&b"4 14"[..], &[octet], &b"9 2 1 1 4"[..]].concat());
        // As the edition, and before it.
        out.octets(&[&b"4 1459 2 1 1 4 "[..], &[octet]].concat());
        out.octets(&[&b"4 1459 2 1 1 4"[..], &[octet], &b"2"[..]].concat());
    }
}

/// Lines of this length from a well-formed one and a filler: it is at the front, at the end, or
/// neither.
fn filled_lines(out: &mut Lines, line: &[u8], length: usize) {
    for filler in [b' ', b'0', b'4', b'x', 0, 255] {
        let rest = vec![filler; length - line.len()];
        out.octets(&[line, &rest].concat());
        if length <= 256 {
            out.octets(&[&rest, line].concat());
            out.octets(&vec![filler; length]);
        }
    }
}

/// Lines up to 80 octets, and longer ones.
fn long_lines(out: &mut Lines, line: &str) {
    let line = line.as_bytes();
    for length in [
        64, 65, 66, 79, 80, 81, 82, 127, 128, 200, 255, 256, 270, 5000,
    ] {
        filled_lines(out, line, length);
        // The second number with leading zeros.
        let zeros = vec![b'0'; length - line.len()];
        out.octets(&[&line[..2], &zeros, &line[2..]].concat());
        // As many numbers as there is room for, and the line again and again: every 80 octets, and
        // every time after one space.
        for (part, every) in [(&b"1"[..], 2), (line, 80), (line, line.len() + 1)] {
            let mut part = part.to_vec();
            part.resize(every, b' ');
            out.octets(&part.into_iter().cycle().take(length).collect::<Vec<u8>>());
        }
    }
    // Past a block of 64 KiB.
    let mut line = line.to_vec();
    line.resize(70_000, b' ');
    out.octets(&line);
}

/// A random q of 32 bits, mostly near a multiple of the bound.
fn random_q(at: u128, prng: &mut Prng) -> u128 {
    let q = match prng.below(6) {
        0 => u128::from(prng.number() as u32),
        1 => u128::from(prng.below(MOST_Q as u64 + 1)),
        2 => MOST_Q - u128::from(prng.below(1000)),
        3 => at + u128::from(prng.below(3)),
        _ => {
            // Close to a multiple of the bound.
            let s = 1 + u128::from(prng.below((MOST_Q / at) as u64 + 1));
            s * at + u128::from(prng.below(3)) - 1
        }
    };
    q.min(u128::from(u32::MAX))
}

/// A random well-formed line, mostly near acceptance.
fn random_line(out: &mut Lines, prng: &mut Prng) {
    let (l, b) = SMALL[prng.below(4) as usize];
    let (dx, dr) = DEGREES[prng.below(4) as usize];
    let most_n = if prng.below(8) == 0 {
        4096
    } else {
        largest_n(l, dx + dr)
    };
    let n = 2 + prng.below(u64::from(most_n) - 1) as u32;
    let q = random_q(bound(l, n, dx + dr), prng);
    let mlen = match prng.below(8) {
        0 => prng.number() as u32 % (n * b + 2 * b),
        1 => n * b,
        2 => 0,
        _ => b * prng.below(u64::from(n) + 1) as u32,
    };
    out.set(l, q, n, dx, dr, mlen);
    match prng.below(6) {
        0 => out.in_editions(&[prng.number() as u32]),
        1..=3 => out.in_editions(&[prng.below(4) as u32]),
        _ => {}
    }
}

fn main() -> io::Result<()> {
    let mut out = Lines(Vec::new());
    worked(&mut out);
    near_the_bound(&mut out);
    limits_of_q(&mut out);
    bounds_that_must_not_wrap(&mut out);
    limits_of_the_others(&mut out);
    limits_of_the_edition(&mut out);
    several_refusals(&mut out);
    for line in WELL_FORMED {
        malformed_fields(&mut out, line);
        malformed_separators(&mut out, line);
        long_lines(&mut out, line);
    }
    for line in OTHER_LINES {
        out.text(line);
    }
    every_octet(&mut out);
    let mut prng = Prng::new(0x0161_6F70_6861_6E74);
    for _ in 0..300 {
        random_line(&mut out, &mut prng);
    }
    // Mix the kinds, so that each follows each.
    for i in (1..out.0.len()).rev() {
        out.0.swap(i, prng.below(i as u64 + 1) as usize);
    }
    // The worked lines in their own order come first.
    let mut lines = Lines(Vec::new());
    worked(&mut lines);
    lines.0.append(&mut out.0);
    lines.text("4 65521 2 1 1 4");

    io::stdout().lock().write_all(&lines.0.join(&b'\n'))
}
