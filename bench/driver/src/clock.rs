//! Processor time of this thread: what other processes of a shared machine take does not count. All unsafe code of the driver is here.
#![allow(unsafe_code)]

/// Linux's number of the clock.
const CLOCK_THREAD_CPUTIME_ID: i32 = 3;

/// C's `struct timespec` on 64-bit Linux.
#[repr(C)]
struct Timespec {
    seconds: i64,
    nanoseconds: i64,
}

extern "C" {
    fn clock_gettime(clock: i32, time: *mut Timespec) -> i32;
}

/// Nanoseconds that this thread has run.
pub fn nanoseconds() -> f64 {
    let mut time = Timespec { seconds: 0, nanoseconds: 0 };
    // SAFETY: `time` is a timespec that is ours alone for the call.
    let failed = unsafe { clock_gettime(CLOCK_THREAD_CPUTIME_ID, &mut time) };
    assert_eq!(failed, 0, "the thread has no clock");
    time.seconds as f64 * 1e9 + time.nanoseconds as f64
}
