//! Whether standard output was closed when the program began. It is asked before Rust's own start, which puts /dev/null in its place.

use std::ffi::c_int;
use std::sync::atomic::{AtomicBool, Ordering};

const FLAGS_OF: c_int = 1; // F_GETFD
const OUT: c_int = 1;

extern "C" {
    fn fcntl(file: c_int, command: c_int, ...) -> c_int;
}

static CLOSED: AtomicBool = AtomicBool::new(false);

#[used]
#[link_section = ".init_array"]
static LOOK: extern "C" fn() = look;

extern "C" fn look() {
    // SAFETY: this only asks for the flags of a number that may be no open file.
    let closed = unsafe { fcntl(OUT, FLAGS_OF) } == -1;
    CLOSED.store(closed, Ordering::Relaxed);
}

pub fn out_was_closed() -> bool {
    CLOSED.load(Ordering::Relaxed)
}
