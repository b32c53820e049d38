//! Interrupts (Ctrl-C, or a request to end): noted, and not the end of the program, while they are
//! held.

#![allow(unsafe_code)]

use std::sync::atomic::{AtomicBool, Ordering};

static INTERRUPTED: AtomicBool = AtomicBool::new(false);

const SIGINT: i32 = 2;
const SIGTERM: i32 = 15;

/// What an interrupt does unless the program says otherwise: it ends the program.
const DEFAULT: usize = 0;

extern "C" {
    fn signal(number: i32, handler: usize) -> usize;
}

extern "C" fn note(_number: i32) {
    INTERRUPTED.store(true, Ordering::Relaxed);
}

/// From now on an interrupt is only noted.
pub fn hold() {
    answer_by(note as extern "C" fn(i32) as usize);
}

/// From now on an interrupt ends the program again.
pub fn let_go() {
    answer_by(DEFAULT);
}

fn answer_by(handler: usize) {
    for number in [SIGINT, SIGTERM] {
        // SAFETY: `signal` is the C library's. The handler is its default or `note`, which only
        // stores into an atomic, as a handler may at any time, and is there as long as the program.
        unsafe { signal(number, handler) };
    }
}

/// Whether there was an interrupt while they were held.
pub fn noted() -> bool {
    INTERRUPTED.load(Ordering::Relaxed)
}
