//! Says which case was running when the library touched what it must not, or trapped.

use std::ffi::{c_int, c_void};
use std::sync::atomic::{AtomicU8, AtomicUsize, Ordering};

/// What to say, ready before the call: a handler must not allocate, and an emulated one had better do nothing but write.
static NOTE: [AtomicU8; 100] = [const { AtomicU8::new(0) }; 100];
static LEN: AtomicUsize = AtomicUsize::new(0);

extern "C" {
    fn signal(number: c_int, handler: extern "C" fn(c_int)) -> *mut c_void;
    fn write(file: c_int, from: *const c_void, len: usize) -> isize;
    fn _exit(status: c_int) -> !;
}

/// SIGILL, SIGABRT, SIGBUS, SIGFPE, SIGSEGV.
const FAULTS: [c_int; 5] = [4, 6, 7, 8, 11];

extern "C" fn handler(_: c_int) {
    // SAFETY: the note is there; then the process ends at once.
    unsafe {
        write(2, NOTE.as_ptr().cast(), LEN.load(Ordering::Relaxed));
        _exit(1)
    }
}

pub fn watch() {
    for number in FAULTS {
        // SAFETY: the handler only writes and ends the process.
        unsafe { signal(number, handler) };
    }
}

/// Names the case that runs next.
pub fn note(case: &str) {
    let text = format!("FAULT in {case}\n");
    for (to, from) in NOTE.iter().zip(text.bytes()) {
        to.store(from, Ordering::Relaxed);
    }
    LEN.store(text.len().min(NOTE.len()), Ordering::Relaxed);
}
