//! Processor time of the calling thread: what else the machine does counts little.

/// As the C library lays it on 64-bit Linux.
#[repr(C)]
struct Time {
    seconds: i64,
    nanoseconds: i64,
}

/// Linux's number for the clock of the calling thread.
const THREAD: i32 = 3;

extern "C" {
    fn clock_gettime(clock: i32, time: *mut Time) -> i32;
}

/// Microseconds of processor time that this thread has had.
fn now() -> f64 {
    let mut time = Time { seconds: 0, nanoseconds: 0 };
    // SAFETY: the time is written into memory of the layout that the call asks for, lent to nobody else.
    let failed = unsafe { clock_gettime(THREAD, &mut time) };
    assert!(failed == 0, "no clock of the thread's processor time");
    time.seconds as f64 * 1e6 + time.nanoseconds as f64 / 1e3
}

/// How many microseconds some work takes.
pub fn timed(work: impl FnOnce()) -> f64 {
    let start = now();
    work();
    now() - start
}
