//! Draws from the caller's random octets. `None` means that the octets end before the draw is
//! complete.

use crate::octets;
use crate::ring::{self, Element};
use crate::set::{bit_length, Set};

/// What a single draw below q says.
#[derive(Clone, Copy, Debug, PartialEq, Eq)]
pub struct Draw {
    pub value: u32,
    /// The octets it used, those of dropped groups included.
    pub used: usize,
    /// The groups it dropped.
    pub dropped_groups: u64,
}

/// A single draw below q from the front of these octets: groups of q or more are dropped.
pub fn below_q(set: Set, octets: &[u8]) -> Option<Draw> {
    let mut used = 0;
    let mut dropped_groups = 0;
    loop {
        let group = octets.get(used..used + set.qlen())?;
        used += group.len();
        let number = octets::number_from_octets(group);
        let reduced = u64::from(number) % (1u64 << bit_length(set.q));
        if reduced < u64::from(set.q) {
            return Some(Draw {
                value: reduced as u32,
                used,
                dropped_groups,
            });
        }
        dropped_groups += 1;
    }
}

/// The draws of one run: the random octets, how many of them are used, and how many groups and
/// small elements are dropped so far.
pub struct Draws<'a> {
    octets: &'a [u8],
    used: usize,
    dropped_groups: u64,
    dropped_elements: u64,
}

impl<'a> Draws<'a> {
    pub fn new(octets: &'a [u8]) -> Self {
        Draws {
            octets,
            used: 0,
            dropped_groups: 0,
            dropped_elements: 0,
        }
    }

    /// The octets used so far, those of dropped groups and elements included.
    pub fn used(&self) -> u64 {
        self.used as u64
    }

    /// The groups dropped so far, over all draws below q.
    pub fn dropped_groups(&self) -> u64 {
        self.dropped_groups
    }

    /// The small elements dropped so far.
    pub fn dropped_elements(&self) -> u64 {
        self.dropped_elements
    }

    /// A draw below q; what it used and dropped is added to the run's totals.
    pub fn coefficient(&mut self, set: Set) -> Option<u32> {
        let draw = below_q(set, &self.octets[self.used..])?;
        self.used += draw.used;
        self.dropped_groups += draw.dropped_groups;
        Some(draw.value)
    }

    /// An element of R_q: n draws below q.
    pub fn element(&mut self, set: Set) -> Option<Element> {
        (0..set.n).map(|_| self.coefficient(set)).collect()
    }

    /// A small element; unused top bits are ignored and nothing is dropped.
    pub fn small(&mut self, set: Set) -> Option<Element> {
        let packed = self.octets[self.used..].get(..set.small_octets())?;
        self.used += packed.len();
        Some(octets::unpack(set.b(), packed, set.places()))
    }

    /// A small element of degree n - 1, as a secret key needs (02, Q-3): one with a zero at
    /// t^(n - 1) is dropped whole.
    pub fn small_of_full_degree(&mut self, set: Set) -> Option<Element> {
        loop {
            let element = self.small(set)?;
            if ring::has_full_degree(&element) {
                return Some(element);
            }
            self.dropped_elements += 1;
        }
    }
}
