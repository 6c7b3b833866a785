//! What is passed to the library: a buffer between two guards, with what must stand in it after
//! the call.

use std::fmt::{Debug, Write};
use std::ops::Range;

use reference::prng::Prng;

/// An octet, a word or a count.
pub trait Cell: Copy + Debug + Default + Eq {
    /// The digits of a cell in hexadecimal.
    const DIGITS: usize;
    fn random(prng: &mut Prng) -> Self;
    fn number(self) -> u64;
}

macro_rules! cells {
    ($($t:ty)*) => {
        $(impl Cell for $t {
            const DIGITS: usize = 2 * size_of::<$t>();
            fn random(prng: &mut Prng) -> Self {
                prng.number() as $t
            }
            fn number(self) -> u64 {
                u64::from(self)
            }
        })*
    };
}
cells!(u8 u32 u64);

/// Cells of each guard, at least.
const GUARD: usize = 16;

/// A buffer between two guards of random cells.
pub struct Buffer<T> {
    name: &'static str,
    /// The guard before, the buffer, the guard after.
    all: Vec<T>,
    place: Range<usize>,
    /// `all` before the call.
    old: Vec<T>,
    /// What the buffer must hold after the call.
    wanted: Vec<T>,
}

impl<T: Cell> Buffer<T> {
    /// A buffer with these contents.
    pub fn given(name: &'static str, contents: &[T], prng: &mut Prng) -> Self {
        // The first guard's length varies, and with it the alignment of octets.
        let start = GUARD + prng.below(8) as usize;
        let place = start..start + contents.len();
        let mut all: Vec<T> = (0..start).map(|_| T::random(prng)).collect();
        all.extend_from_slice(contents);
        all.extend((0..GUARD).map(|_| T::random(prng)));
        Buffer {
            name,
            old: all.clone(),
            all,
            place,
            wanted: contents.to_vec(),
        }
    }

    /// A buffer of this many random cells.
    pub fn garbage(name: &'static str, length: usize, prng: &mut Prng) -> Self {
        let contents: Vec<T> = (0..length).map(|_| T::random(prng)).collect();
        Self::given(name, &contents, prng)
    }

    /// One random number.
    pub fn one(name: &'static str, prng: &mut Prng) -> Self {
        Self::garbage(name, 1, prng)
    }

    pub fn slice(&self) -> &[T] {
        &self.all[self.place.clone()]
    }

    pub fn slice_mut(&mut self) -> &mut [T] {
        &mut self.all[self.place.clone()]
    }

    /// The only cell of a buffer made by `one`.
    pub fn cell_mut(&mut self) -> &mut T {
        &mut self.slice_mut()[0]
    }

    /// What the reference implementation reads or writes: at first the same contents.
    pub fn wanted(&mut self) -> &mut [T] {
        &mut self.wanted
    }

    pub fn wanted_cell(&mut self) -> &mut T {
        &mut self.wanted[0]
    }

    pub fn contents(self) -> Vec<T> {
        self.all[self.place].to_vec()
    }
}

/// What is asked of a buffer after the call, whatever its cells are.
pub trait Checked {
    /// The first cell that isn't as it must be, in words.
    fn difference(&self) -> Option<String>;
    /// Whether the contents are those before the call.
    fn is_old(&self) -> bool;
    fn is_zero(&self) -> bool;
    fn name(&self) -> &'static str;
    /// The name, the length and the contents before the call, shortened.
    fn show(&self) -> String;
}

impl<T: Cell> Checked for Buffer<T> {
    fn difference(&self) -> Option<String> {
        let at = (0..self.all.len()).find(|&at| {
            let wanted = match self.place.contains(&at) {
                true => self.wanted[at - self.place.start],
                false => self.old[at],
            };
            self.all[at] != wanted
        })?;
        let (name, got) = (self.name, self.all[at].number());
        Some(if at < self.place.start {
            let before = self.place.start - at;
            format!("{name}: the cell {before} before the buffer was overwritten")
        } else if at >= self.place.end {
            let after = at - self.place.end + 1;
            format!("{name}: the cell {after} past the buffer was overwritten")
        } else {
            let place = at - self.place.start;
            let (wanted, old) = (self.wanted[place].number(), self.old[at].number());
            format!("{name}[{place}] is {got:#x}, the reference has {wanted:#x}, before the call it was {old:#x}")
        })
    }

    fn is_old(&self) -> bool {
        self.all[self.place.clone()] == self.old[self.place.clone()]
    }

    fn is_zero(&self) -> bool {
        self.slice().iter().all(|&cell| cell == T::default())
    }

    fn name(&self) -> &'static str {
        self.name
    }

    fn show(&self) -> String {
        const SHOWN: usize = 200;
        let old = &self.old[self.place.clone()];
        let mut text = format!("{}[{}] =", self.name, old.len());
        for cell in old.iter().take(SHOWN) {
            write!(text, " {:0width$X}", cell.number(), width = T::DIGITS).expect("a string");
        }
        if old.len() > SHOWN {
            text.push_str(" ...");
        }
        text
    }
}
