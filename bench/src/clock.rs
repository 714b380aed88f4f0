//! The processor time that this thread has used, so that other work on the machine is not counted.

#[repr(C)]
struct Timespec {
    seconds: i64,
    nanoseconds: i64,
}

extern "C" {
    fn clock_gettime(clock: i32, time: *mut Timespec) -> i32;
}

/// Linux's number for the thread's own clock.
const CLOCK_THREAD_CPUTIME_ID: i32 = 3;

/// Seconds of processor time so far.
pub fn seconds() -> f64 {
    let mut time = Timespec { seconds: 0, nanoseconds: 0 };
    let status = unsafe { clock_gettime(CLOCK_THREAD_CPUTIME_ID, &mut time) };
    assert_eq!(status, 0, "the thread has a clock");
    time.seconds as f64 + time.nanoseconds as f64 * 1e-9
}
