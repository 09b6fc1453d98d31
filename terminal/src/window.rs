//! Word of a window that was made wider or narrower: the only file with unsafe code.
//!
//! The system sends a signal then. It is held back in every thread, so that it interrupts nothing, and one thread waits for it.

#![allow(unsafe_code)]

use std::ffi::c_int;
use std::io;

/// Linux's numbers for the signal, and for holding signals back.
const SIGWINCH: c_int = 28;
const SIG_BLOCK: c_int = 0;

/// A set of signals as C has it: no library of Linux has a larger one.
#[repr(C)]
struct Signals([u64; 16]);

extern "C" {
    fn sigemptyset(set: *mut Signals) -> c_int;
    fn sigaddset(set: *mut Signals, signal: c_int) -> c_int;
    fn pthread_sigmask(how: c_int, set: *const Signals, before: *mut Signals) -> c_int;
    fn sigwait(set: *const Signals, signal: *mut c_int) -> c_int;
}

/// Each change of the window, as it comes.
pub struct Changes {
    signals: Signals,
}

impl Changes {
    /// Looks out for changes from now on. No other thread may have been started: one that does not hold the signal back would take it.
    pub fn watched() -> io::Result<Changes> {
        let mut signals = Signals([0; 16]);
        // SAFETY: the set is ours, and as long as the C library writes it; no set is asked for back.
        let failed = unsafe {
            sigemptyset(&mut signals) != 0
                || sigaddset(&mut signals, SIGWINCH) != 0
                || pthread_sigmask(SIG_BLOCK, &signals, std::ptr::null_mut()) != 0
        };
        match failed {
            true => Err(io::Error::other("the window cannot be watched")),
            false => Ok(Changes { signals }),
        }
    }
}

impl Iterator for Changes {
    type Item = ();

    fn next(&mut self) -> Option<()> {
        let mut signal = 0;
        // SAFETY: the set was made by `watched`, and the number is ours.
        let failed = unsafe { sigwait(&self.signals, &mut signal) };
        (failed == 0).then_some(())
    }
}
