//! The work words that four of the calls need, kept for each thread and used again.

use std::cell::Cell;

thread_local! {
    /// As many words as a call of this thread needed so far, all zero between calls: after every ending past its length
    /// test the library leaves them zero.
    static KEPT: Cell<Vec<u32>> = const { Cell::new(Vec::new()) };
}

/// Gives `call` exactly `words` work words.
pub(crate) fn with<T>(words: usize, call: impl FnOnce(&mut [u32]) -> T) -> T {
    // Taken out while the call runs. While a thread ends there is nothing to take, and new words serve as well.
    let mut kept = KEPT.try_with(Cell::take).unwrap_or_default();
    if kept.len() < words {
        kept.resize(words, 0);
    }
    let result = call(&mut kept[..words]);
    let _ = KEPT.try_with(|place| place.set(kept));
    result
}

#[cfg(test)]
mod tests {
    use super::*;

    #[test]
    fn gives_the_exact_number_and_keeps_the_longest() {
        let first = with(16, |words| {
            assert_eq!(words.len(), 16);
            words.as_ptr() as usize
        });
        let second = with(8, |words| {
            assert_eq!(words.len(), 8);
            words.as_ptr() as usize
        });
        assert_eq!(first, second);
    }

    #[test]
    fn a_call_inside_a_call_has_words_of_its_own() {
        with(4, |outer| {
            outer.fill(7);
            with(4, |inner| inner.fill(9));
            assert_eq!(outer, [7, 7, 7, 7]);
            outer.fill(0);
        });
    }
}
