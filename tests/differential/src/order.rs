//! The order of the refusals.

/// The refusals in the order in which they are tested: where several apply, the first is given.
const ORDER: [u32; 13] = [11, 1, 2, 3, 4, 5, 18, 6, 7, 8, 14, 9, 10];

/// The refusals of a set, which every call tests first.
pub const OF_SET: [u32; 6] = [1, 2, 3, 4, 5, 18];

/// The length test. It and those before it leave the work words untouched.
const LENGTH: u32 = 6;

/// Of the refusals that apply, the one that is given; 0 where none applies.
pub fn first(applying: &[u32]) -> u32 {
    let mut found = ORDER.into_iter().filter(|number| applying.contains(number));
    found.next().unwrap_or(0)
}

/// Whether the work words are untouched after this answer; after every other they are zero.
pub fn leaves_work(number: u32) -> bool {
    first(&[number, LENGTH]) == number
}
