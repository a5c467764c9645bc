//! The thread's own time. The test of time in rust/ciztarmo compiles this file
//! too, which therefore needs nothing else.

#[repr(C)]
struct Time {
    seconds: i64,
    nanoseconds: i64,
}

extern "C" {
    fn clock_gettime(clock: i32, time: *mut Time) -> i32;
}

/// CLOCK_THREAD_CPUTIME_ID of Linux: it stands still while another program
/// has the processor.
const OF_THREAD: i32 = 3;

/// The thread's own time, in nanoseconds.
pub fn now() -> f64 {
    let mut time = Time {
        seconds: 0,
        nanoseconds: 0,
    };
    // SAFETY: the call writes to `time`, which has the form that it asks for.
    let answer = unsafe { clock_gettime(OF_THREAD, &mut time) };
    assert_eq!(answer, 0, "there is no clock of a thread's own time");
    time.seconds as f64 * 1e9 + time.nanoseconds as f64
}
