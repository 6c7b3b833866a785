//! The program roomsheet.

use std::io::{self, BufRead, Write};

use crate::refusal;
use crate::set::{limits, set, Set};

/// The most octets that a line may have before its newline.
const LINE_OCTETS: usize = 80;

/// One number: digits alone, no needless leading zero, at most 4,294,967,295.
fn parse_number(field: &[u8]) -> Option<u32> {
    if field.is_empty() || !field.iter().all(u8::is_ascii_digit) {
        return None;
    }
    if field.len() > 1 && field[0] == b'0' {
        return None;
    }
    if field.len() > 10 {
        return None;
    }
    let mut number = 0u64;
    for &digit in field {
        number = number * 10 + u64::from(digit - b'0');
    }
    u32::try_from(number).ok()
}

/// The set of a line (without its newline): six numbers are edition 1, and a seventh is the edition
/// (02, Q-7). `None` if it is malformed.
pub fn parse_line(line: &[u8]) -> Option<Set> {
    if line.len() > LINE_OCTETS {
        return None;
    }
    let mut numbers = Vec::new();
    for field in line.split(|&octet| octet == b' ') {
        numbers.push(parse_number(field)?);
    }
    match numbers[..] {
        [l, q, n, dx, dr, mlen] => Some(set(l, q, n, dx, dr, mlen)),
        [l, q, n, dx, dr, mlen, edition] => Some(set(l, q, n, dx, dr, mlen).in_edition(edition)),
        _ => None,
    }
}

/// The answer to a line, without its newline.
pub fn answer(line: &[u8]) -> String {
    let Some(set) = parse_line(line) else {
        return refusal::LINE.to_string();
    };
    let (mut bound, mut headroom) = (0, 0);
    let number = limits(set, &mut bound, &mut headroom);
    if number != refusal::NONE {
        return number.to_string();
    }
    format!("0 {bound} {headroom}")
}

/// Reads all lines and writes an answer for each. Of an overlong line only as much is kept as
/// shows that it is overlong.
pub fn run(input: impl BufRead, mut output: impl Write) -> io::Result<()> {
    let mut line = Vec::new();
    for octet in input.bytes() {
        let octet = octet?;
        if octet == b'\n' {
            writeln!(output, "{}", answer(&line))?;
            line.clear();
        } else if line.len() <= LINE_OCTETS {
            line.push(octet);
        }
    }
    if !line.is_empty() {
        writeln!(output, "{}", answer(&line))?;
    }
    output.flush()
}

#[cfg(test)]
mod tests {
    use super::*;

    fn run_on(input: &[u8]) -> String {
        let mut output = Vec::new();
        run(input, &mut output).expect("memory");
        String::from_utf8(output).expect("ASCII")
    }

    #[test]
    fn the_four_lines() {
        let input = b"4 1459 2 1 1 4\n4 1455 2 1 1 4\n4 65521 2 1 1 4\n4 1459 2 1 1\n";
        assert_eq!(run_on(input), "0 1455 1\n4\n0 1455 45\n11\n");
    }

    #[test]
    fn ends_of_input() {
        assert_eq!(run_on(b""), "");
        assert_eq!(run_on(b"\n"), "11\n");
        assert_eq!(run_on(b"\n\n"), "11\n11\n");
        assert_eq!(run_on(b"4 1459 2 1 1 4"), "0 1455 1\n");
        assert_eq!(run_on(b"4 1459 2 1 1 4\n"), "0 1455 1\n");
        assert_eq!(run_on(b"4 1459 2 1 1 4\n\n"), "0 1455 1\n11\n");
        assert_eq!(run_on(b"4 1459 2 1 1 4\nx"), "0 1455 1\n11\n");
        assert_eq!(run_on(b" "), "11\n");
    }

    #[test]
    fn headroom_at_a_multiple_of_the_bound() {
        assert_eq!(answer(b"4 2909 2 1 1 4"), "0 1455 1");
        assert_eq!(answer(b"4 2910 2 1 1 4"), "0 1455 1");
        assert_eq!(answer(b"4 2911 2 1 1 4"), "0 1455 2");
    }

    #[test]
    fn malformed_lines() {
        let lines: [&[u8]; 25] = [
            b"",
            b" ",
            b" 4 1459 2 1 1 4",
            b"4 1459 2 1 1 4 ",
            b"4  1459 2 1 1 4",
            b"4\t1459 2 1 1 4",
            b"4 1459 2 1 1 4\r",
            b"4 1459 2 1 1 4\0",
            b"\x004 1459 2 1 1 4",
            b"4 1459 2 1 1 \xB4",
            b"+4 1459 2 1 1 4",
            b"4 -1459 2 1 1 4",
            b"04 1459 2 1 1 4",
            b"4 1459 2 1 1 00",
            b"4 1459 2 1 1",
            b"4 1459 2 1 1 4 1 1",
            b"4 1459 2 1 1 4 01",
            b"4 1459 2 1 1 4 2 ",
            b"4 1459 2 1 1 4 4294967297",
            b"4 4294967296 2 1 1 4",
            b"18446744073709551620 1459 2 1 1 4",
            b"4 99999999999 2 1 1 4",
            b"4 1459 2 1 1 4a",
            b"4 145:9 2 1 1 4",
            b"4 145/9 2 1 1 4",
        ];
        for line in lines {
            assert_eq!(answer(line), "11", "{line:?}");
        }
    }

    #[test]
    fn overlong_lines() {
        for length in [79, 80, 81, 82, 200, 5000, 100_000] {
            let mut line = b"4 1459 2 1 1 4".to_vec();
            line.resize(length, b' ');
            line.push(b'\n');
            line.extend(b"4 1459 2 1 1 4\n");
            assert_eq!(run_on(&line), "11\n0 1455 1\n");
        }
    }

    #[test]
    fn widest_numbers_are_well_formed() {
        let line = b"4294967295 4294967295 4294967295 4294967295 4294967295 4294967295";
        assert_eq!(answer(line), "1");
        assert_eq!(answer(&[&line[..], b" 4294967295"].concat()), "1");
        assert_eq!(answer(b"0 0 0 0 0 0"), "1");
        assert_eq!(answer(b"0 0 0 0 0 0 0"), "1");
        assert_eq!(answer(b"4 1459 2 1 1 4 4294967295"), "18");
    }
}
