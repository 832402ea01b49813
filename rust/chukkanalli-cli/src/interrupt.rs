//! An interrupt ends a line of progress before it ends the program.

use std::ffi::{c_int, c_void};
use std::sync::atomic::{AtomicBool, Ordering};

const SIGNALS: [c_int; 3] = [1, 2, 15]; // SIGHUP, SIGINT, SIGTERM
const DEFAULT: usize = 0; // SIG_DFL
const IGNORED: usize = 1; // SIG_IGN
const ERR: c_int = 2;

extern "C" {
    fn signal(number: c_int, handler: usize) -> usize;
    fn raise(number: c_int) -> c_int;
    fn write(file: c_int, bytes: *const c_void, count: usize) -> isize;
}

static LINE_IS_OPEN: AtomicBool = AtomicBool::new(false);

/// Whether a line of progress stands on the terminal without its end.
pub fn line_is_open(open: bool) {
    LINE_IS_OPEN.store(open, Ordering::Relaxed);
}

/// From here on an interrupt ends an open line first, and then the program as it would have; one that is ignored stays so.
pub fn end_lines() {
    for number in SIGNALS {
        // SAFETY: `on_interrupt` only calls what a handler may call.
        unsafe {
            if signal(number, on_interrupt as *const () as usize) == IGNORED {
                signal(number, IGNORED);
            }
        }
    }
}

extern "C" fn on_interrupt(number: c_int) {
    // SAFETY: all three may be called by a handler, and the byte is there to be read.
    unsafe {
        if LINE_IS_OPEN.load(Ordering::Relaxed) {
            write(ERR, b"\n".as_ptr().cast(), 1);
        }
        signal(number, DEFAULT);
        raise(number);
    }
}
