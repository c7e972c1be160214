//! The first operation that document 01 refuses by 6 or 7: a matrix whose determinant is zero, a vector divided by zero.

use std::cell::Cell;

thread_local! {
    static FIRST: Cell<u8> = const { Cell::new(0) };
}

pub fn clear() { FIRST.with(|f| f.set(0)) }

/// The refusal number of the first event since `clear`, 0 if there was none.
pub fn first() -> u8 { FIRST.with(|f| f.get()) }

pub fn note(refusal: u8) {
    FIRST.with(|f| {
        if f.get() == 0 {
            f.set(refusal)
        }
    })
}
