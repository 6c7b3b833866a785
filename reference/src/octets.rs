//! Packed small coefficients, and coefficients of qlen octets.

/// Packs coefficients of b bits into `length` octets: coefficient i starts at bit i * b, where
/// bit 0 is the lowest bit of the first octet. Unused bits are zero.
pub fn pack(b: u32, coefficients: &[u32], length: usize) -> Vec<u8> {
    let b = b as usize;
    let mut octets = vec![0u8; length];
    for (i, &coefficient) in coefficients.iter().enumerate() {
        for k in 0..b {
            let bit = i * b + k;
            if (coefficient >> k) & 1 == 1 {
                octets[bit / 8] |= 1 << (bit % 8);
            }
        }
    }
    octets
}

/// The first `count` coefficients of b bits.
pub fn unpack(b: u32, octets: &[u8], count: usize) -> Vec<u32> {
    let b = b as usize;
    let mut coefficients = vec![0u32; count];
    for (i, coefficient) in coefficients.iter_mut().enumerate() {
        for k in 0..b {
            let bit = i * b + k;
            if (octets[bit / 8] >> (bit % 8)) & 1 == 1 {
                *coefficient |= 1 << k;
            }
        }
    }
    coefficients
}

/// Whether every bit from `used_bits` on is zero.
pub fn unused_bits_are_zero(octets: &[u8], used_bits: usize) -> bool {
    (used_bits..8 * octets.len()).all(|bit| (octets[bit / 8] >> (bit % 8)) & 1 == 0)
}

/// One number, least significant octet first; at most four octets.
pub fn number_from_octets(octets: &[u8]) -> u32 {
    assert!(octets.len() <= 4);
    let mut number = 0u32;
    for &octet in octets.iter().rev() {
        number = number * 256 + u32::from(octet);
    }
    number
}

/// Numbers of qlen octets each.
pub fn numbers_from_octets(qlen: usize, octets: &[u8]) -> Vec<u32> {
    octets.chunks(qlen).map(number_from_octets).collect()
}

/// Numbers to qlen octets each, least significant first.
pub fn numbers_to_octets(qlen: usize, numbers: &[u32]) -> Vec<u8> {
    let mut octets = Vec::new();
    for &number in numbers {
        let mut rest = number;
        for _ in 0..qlen {
            octets.push((rest % 256) as u8);
            rest /= 256;
        }
        assert_eq!(rest, 0);
    }
    octets
}

#[cfg(test)]
mod tests {
    use super::*;

    #[test]
    fn three_bit_coefficients_cross_octets() {
        // bits 100 010 110 001 ... from bit 0 upwards: 1, 2, 3, 4, 5, 6, 7, 0, 1
        let coefficients = [1, 2, 3, 4, 5, 6, 7, 0, 1];
        let octets = pack(3, &coefficients, 4);
        assert_eq!(octets, [0xD1, 0x58, 0x1F, 0x01]);
        assert_eq!(unpack(3, &octets, 9), coefficients);
        assert!(unused_bits_are_zero(&octets, 27));
        assert!(!unused_bits_are_zero(&octets, 24));
    }

    #[test]
    fn numbers_go_least_significant_first() {
        assert_eq!(number_from_octets(&[0x9F, 0x05]), 0x059F);
        assert_eq!(number_from_octets(&[0xFF; 4]), u32::MAX);
        assert_eq!(numbers_to_octets(2, &[0x059F, 5]), [0x9F, 0x05, 5, 0]);
    }
}
