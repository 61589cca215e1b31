//! The processor time of this thread: what other programs take of the machine is not in it.

#![allow(unsafe_code)]

/// CLOCK_THREAD_CPUTIME_ID of Linux.
const THREAD: i32 = 3;

/// The struct timespec of x86-64.
#[repr(C)]
struct Time {
    seconds: i64,
    nanoseconds: i64,
}

extern "C" {
    fn clock_gettime(clock: i32, time: *mut Time) -> i32;
}

/// Nanoseconds that this thread has run.
pub fn nanoseconds() -> i64 {
    let mut time = Time {
        seconds: 0,
        nanoseconds: 0,
    };
    // SAFETY: the time is borrowed for the call alone, which writes it.
    let status = unsafe { clock_gettime(THREAD, &mut time) };
    assert_eq!(status, 0, "no clock");
    time.seconds * 1_000_000_000 + time.nanoseconds
}
