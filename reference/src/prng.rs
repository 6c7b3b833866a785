//! A small generator of test numbers (splitmix64). Not for keys.

use crate::set::Set;

pub struct Prng {
    state: u64,
}

impl Prng {
    pub fn new(seed: u64) -> Self {
        Prng { state: seed }
    }

    pub fn number(&mut self) -> u64 {
        self.state = self.state.wrapping_add(0x9E37_79B9_7F4A_7C15);
        let mut z = self.state;
        z = (z ^ (z >> 30)).wrapping_mul(0xBF58_476D_1CE4_E5B9);
        z = (z ^ (z >> 27)).wrapping_mul(0x94D0_49BB_1331_11EB);
        z ^ (z >> 31)
    }

    /// A number below `limit`, near enough to even for tests.
    pub fn below(&mut self, limit: u64) -> u64 {
        self.number() % limit
    }

    pub fn octets(&mut self, count: usize) -> Vec<u8> {
        (0..count).map(|_| (self.number() >> 56) as u8).collect()
    }

    /// Enough random octets for keys or a ciphertext: a group or a secret element is dropped with a
    /// chance of at most one half.
    pub fn octets_for(&mut self, set: Set) -> Vec<u8> {
        self.octets(16 * set.ciphertext_octets() + 4096)
    }
}
