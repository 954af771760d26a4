//! Calls a function that does nothing, some microseconds apart: what probes tell of it is what they take themselves.

use std::hint::black_box;

#[no_mangle]
#[inline(never)]
pub extern "C" fn does_nothing() {
    black_box(0);
}

fn main() {
    for _ in 0..1000 {
        for i in 0..10_000 {
            black_box(i);
        }
        does_nothing();
    }
}
