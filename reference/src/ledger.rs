//! 01: the book of sums. Counts and places are whole numbers of any size; nothing is reduced.

use crate::octets;
use crate::scheme::read_message;
use crate::set::{bound, headroom, Set};

/// A whole number of any size, 32 bits a digit, least significant first.
#[derive(Clone, Debug, Default, PartialEq, Eq)]
pub struct Natural {
    digits: Vec<u32>,
}

impl Natural {
    pub fn from_u32(number: u32) -> Self {
        Natural {
            digits: vec![number],
        }
    }

    pub fn plus(&self, other: &Natural) -> Natural {
        let length = self.digits.len().max(other.digits.len());
        let mut digits = Vec::new();
        let mut carry = 0u64;
        for i in 0..length {
            let a = self.digits.get(i).copied().unwrap_or(0);
            let b = other.digits.get(i).copied().unwrap_or(0);
            let sum = u64::from(a) + u64::from(b) + carry;
            digits.push((sum % (1 << 32)) as u32);
            carry = sum >> 32;
        }
        if carry != 0 {
            digits.push(carry as u32);
        }
        Natural { digits }
    }

    pub fn modulo(&self, divisor: u32) -> u32 {
        let mut rest = 0u64;
        for &digit in self.digits.iter().rev() {
            rest = ((rest << 32) + u64::from(digit)) % u64::from(divisor);
        }
        rest as u32
    }

    /// Whether the number is at most `limit`.
    pub fn at_most(&self, limit: u128) -> bool {
        let mut value = 0u128;
        for &digit in self.digits.iter().rev() {
            if value > limit {
                return false;
            }
            let Some(higher) = value.checked_mul(1 << 32) else {
                return false;
            };
            value = higher + u128::from(digit);
        }
        value <= limit
    }
}

/// A count of messages, and a whole number for each place.
#[derive(Clone, Debug, PartialEq, Eq)]
pub struct Entry {
    pub count: Natural,
    pub places: Vec<Natural>,
}

/// One entry for each ciphertext that an accepted call gave, in order.
pub struct Ledger {
    set: Set,
    pub entries: Vec<Entry>,
}

impl Ledger {
    /// An empty ledger for an accepted set.
    pub fn new(set: Set) -> Self {
        Ledger {
            set,
            entries: Vec::new(),
        }
    }

    /// An accepted encryption of this message.
    pub fn encrypted(&mut self, message: &[u8]) {
        let m = read_message(self.set, message).expect("the call was accepted");
        self.entries.push(Entry {
            count: Natural::from_u32(1),
            places: m.into_iter().map(Natural::from_u32).collect(),
        });
    }

    /// An accepted addition of two earlier ciphertexts, perhaps one of them twice.
    pub fn added(&mut self, first: usize, second: usize) {
        let (a, b) = (&self.entries[first], &self.entries[second]);
        let entry = Entry {
            count: a.count.plus(&b.count),
            places: a
                .places
                .iter()
                .zip(&b.places)
                .map(|(x, y)| x.plus(y))
                .collect(),
        };
        self.entries.push(entry);
    }

    /// Whether the entry's count times the bound is below q.
    pub fn within_headroom(&self, entry: usize) -> bool {
        let b = bound(self.set.l, self.set.n, self.set.d());
        self.entries[entry].count.at_most(headroom(self.set.q, b))
    }

    /// The message whose coefficient at each place is the entry's number modulo l.
    pub fn message(&self, entry: usize) -> Vec<u8> {
        let set = self.set;
        let coefficients: Vec<u32> = self.entries[entry]
            .places
            .iter()
            .map(|x| x.modulo(set.l))
            .collect();
        let (kept, tail) = coefficients.split_at((set.mlen / set.b()) as usize);
        assert!(tail.iter().all(|&x| x == 0));
        octets::pack(set.b(), kept, set.message_octets())
    }
}

#[cfg(test)]
mod tests {
    use super::*;

    #[test]
    fn naturals_do_not_wrap() {
        let mut x = Natural::from_u32(3);
        for _ in 0..200 {
            x = x.plus(&x.clone());
        }
        // 3 * 2^200: 2^200 modulo 7 is 4, since 200 modulo 3 is 2.
        assert_eq!(x.modulo(7), 12 % 7);
        assert_eq!(x.modulo(16), 0);
        assert!(!x.at_most(u128::MAX));
        assert_eq!(x.plus(&Natural::from_u32(5)).modulo(16), 5);

        let max = Natural::from_u32(u32::MAX);
        let more = max.plus(&Natural::from_u32(1));
        assert!(more.at_most(1 << 32));
        assert!(!more.at_most((1 << 32) - 1));
        assert_eq!(more.modulo(10), 6);
        assert!(Natural::default().at_most(0));
    }
}
