//! For tests: the library's requests for memory, counted by thread, of which those that a test names are refused, and the
//! bytes that are in use. The requests are those of this crate's archive alone; the program's own `Vec`s are not part of it.

use std::cell::Cell;

thread_local! {
    static ASKED: Cell<u64> = const { Cell::new(0) };
    static FIRST: Cell<u64> = const { Cell::new(u64::MAX) };
    static LAST: Cell<u64> = const { Cell::new(0) };
    static HELD: Cell<usize> = const { Cell::new(0) };
}

pub(crate) fn admits() -> bool {
    let number = ASKED.get() + 1;
    ASKED.set(number);
    number < FIRST.get() || LAST.get() < number
}

/// A block of this length was given.
pub(crate) fn given(bytes: usize) {
    HELD.set(HELD.get().wrapping_add(bytes));
}

/// A block of this length was given back.
pub(crate) fn returned(bytes: usize) {
    HELD.set(HELD.get().wrapping_sub(bytes));
}

fn plan(first: u64, last: u64) {
    ASKED.set(0);
    FIRST.set(first);
    LAST.set(last);
}

/// Counts anew, and refuses the request number `n` alone, if the next is number 1.
pub fn refuse_only(n: u64) {
    plan(n, n);
}

/// Counts anew, and refuses the request number `n` and each later one.
pub fn refuse_from(n: u64) {
    plan(n, u64::MAX);
}

/// Counts anew, and refuses nothing.
pub fn refuse_none() {
    plan(u64::MAX, 0);
}

/// How many requests there were since one of these was last called.
pub fn asked() -> u64 {
    ASKED.get()
}

/// Whether one of these requests was refused.
pub fn has_refused() -> bool {
    FIRST.get() <= ASKED.get().min(LAST.get())
}

/// The bytes of all blocks that are in use, as malloc rounds them up. What one thread takes and another gives back counts for
/// both.
pub fn held() -> usize {
    HELD.get()
}
