//! The step counter that the counted copy calls at its five entries.

use std::cell::Cell;
use std::panic::{AssertUnwindSafe, catch_unwind, resume_unwind};

thread_local! {
    static TAKEN: Cell<u32> = const { Cell::new(0) };
    static ALLOWANCE: Cell<u32> = const { Cell::new(0) };
}

/// Thrown when one more step would pass the allowance.
struct AllowancePassed;

/// Counts one step. Rows may take exponentially many, so the run is ended
/// from inside; `resume_unwind` does so without the panic message.
pub fn enter() {
    let taken = TAKEN.get();
    if taken == ALLOWANCE.get() {
        resume_unwind(Box::new(AllowancePassed));
    }
    TAKEN.set(taken + 1);
}

/// Runs with an allowance and gives the result, or `None` where the step
/// count would have passed it, and the steps taken.
pub fn within<T>(allowance: u32, run: impl FnOnce() -> T) -> (Option<T>, u32) {
    TAKEN.set(0);
    ALLOWANCE.set(allowance);
    match catch_unwind(AssertUnwindSafe(run)) {
        Ok(result) => (Some(result), TAKEN.get()),
        Err(thrown) if thrown.is::<AllowancePassed>() => (None, allowance),
        Err(thrown) => resume_unwind(thrown),
    }
}
