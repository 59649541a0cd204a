//! Which change is made, and a bound on the work of a run, since a changed
//! loop may never end.

use std::cell::Cell;

use crate::generate::words::KNOWN_WORDS;

thread_local! {
    static CHOSEN: Cell<usize> = const { Cell::new(NONE) };
    static TICKS: Cell<u64> = const { Cell::new(0) };
    static MOST: Cell<u64> = const { Cell::new(u64::MAX) };
}

/// The number of no change.
pub const NONE: usize = usize::MAX;

pub fn chosen() -> usize {
    CHOSEN.get()
}

/// Called at each entry to a changed function and in each turn of its loops.
pub fn tick() {
    let ticks = TICKS.get() + 1;
    TICKS.set(ticks);
    if ticks > MOST.get() {
        std::panic::resume_unwind(Box::new("endless"));
    }
}

/// Runs with a change and so many ticks; gives the ticks taken too.
pub fn with<T>(change: usize, most: u64, run: impl FnOnce() -> T) -> (T, u64) {
    CHOSEN.set(change);
    MOST.set(most);
    TICKS.set(0);
    let result = run();
    CHOSEN.set(NONE);
    MOST.set(u64::MAX);
    (result, TICKS.get())
}

/// A number, the place that is told and the next one exchanged.
pub fn exchanged(number: usize, place: usize) -> usize {
    match number {
        _ if number == place => place + 1,
        _ if number == place + 1 => place,
        _ => number,
    }
}

/// The known word that a word is if its case is ignored.
pub fn any_case(word: &str) -> &str {
    let known = KNOWN_WORDS
        .iter()
        .find(|known| known.eq_ignore_ascii_case(word));
    known.unwrap_or(&word)
}
