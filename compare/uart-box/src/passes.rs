//! The count of passes: each call of `take_next_on_the_line` is one.
use std::cell::Cell;

thread_local! {
    static PASSES: Cell<u64> = const { Cell::new(0) };
}

pub(crate) fn count_one() {
    PASSES.set(PASSES.get() + 1);
}

/// The passes since this was last asked.
pub(crate) fn take() -> u64 {
    PASSES.replace(0)
}
