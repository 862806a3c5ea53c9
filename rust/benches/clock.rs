//! The CPU time of the calling thread: what else the machine does in the
//! meantime is not counted.

use std::ffi::{c_int, c_long};

/// Linux's CLOCK_THREAD_CPUTIME_ID.
const THREAD_CPU_TIME: c_int = 3;

/// C's `struct timespec`.
#[repr(C)]
struct Timespec {
    seconds: c_long,
    nanoseconds: c_long,
}

extern "C" {
    fn clock_gettime(clock: c_int, time: *mut Timespec) -> c_int;
}

/// Nanoseconds this thread has run so far.
pub fn nanoseconds() -> u64 {
    let mut time = Timespec {
        seconds: 0,
        nanoseconds: 0,
    };
    // SAFETY: the pointer is to a live timespec of C's layout, only written to.
    let answer = unsafe { clock_gettime(THREAD_CPU_TIME, &mut time) };
    assert_eq!(answer, 0, "the machine has no clock of a thread's CPU time");
    time.seconds as u64 * 1_000_000_000 + time.nanoseconds as u64
}
