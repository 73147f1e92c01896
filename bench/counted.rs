//! For callgrind, which counts in the functions `side_..` (count.py).

use std::hint::black_box;

/// Called after each side, where callgrind writes down what it counted.
#[unsafe(no_mangle)]
#[inline(never)]
pub fn counted() {
    black_box(());
}
