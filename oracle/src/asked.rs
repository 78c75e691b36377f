//! What the edited copy is asked beyond its arguments: the width for which it packs twiddles, and whether it traces them.
//!
//! In a trace every iteration of a stage has a column of its own, and a twiddle's value is a code of its stage, its
//! iteration and its number, so that the packing, which is the original's, shows which of them stands at each place.
use crate::fft::Complex32;
use std::cell::Cell;

thread_local! {
    static WIDTH: Cell<usize> = const { Cell::new(1) };
    static IS_TRACED: Cell<bool> = const { Cell::new(false) };
}

/// What is made while twiddles are packed for a width, traced or not.
pub fn with<T>(width: usize, is_traced: bool, make: impl FnOnce() -> T) -> T {
    let before = (WIDTH.replace(width), IS_TRACED.replace(is_traced));
    let made = make();
    WIDTH.set(before.0);
    IS_TRACED.set(before.1);
    made
}

/// The width that is asked for: scalar unless another is.
pub fn width() -> usize {
    WIDTH.get()
}

/// How many columns a stage of a stride has.
pub fn columns(stride: usize, iterations: usize) -> usize {
    if IS_TRACED.get() {
        iterations
    } else {
        stride
    }
}

/// The code of twiddle k of an iteration, in a trace.
pub fn code(stage: usize, iteration: usize, k: usize) -> Option<Complex32> {
    IS_TRACED
        .get()
        .then(|| Complex32::new(iteration as f32, (8 * stage + k) as f32))
}

/// A twiddle's stage, iteration and number, from its code.
pub fn decoded(code: &Complex32) -> (usize, usize, usize) {
    let rest = code.im as usize;
    (rest / 8, code.re as usize, rest % 8)
}
