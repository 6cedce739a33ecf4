//! The processor time of this thread: what else the machine does is not in it, but for what that does to the caches.

use std::mem::MaybeUninit;

#[repr(C)]
struct Timespec {
    seconds: i64,
    nanoseconds: i64,
}

/// CLOCK_THREAD_CPUTIME_ID under Linux.
const THREAD_CPU_TIME: i32 = 3;

extern "C" {
    fn clock_gettime(clock: i32, time: *mut Timespec) -> i32;
}

/// Microseconds of processor time so far.
pub fn now() -> f64 {
    let mut time = MaybeUninit::<Timespec>::uninit();
    // SAFETY: the call fills the struct that it is lent, and says by 0 that it did.
    let time = unsafe {
        assert_eq!(clock_gettime(THREAD_CPU_TIME, time.as_mut_ptr()), 0, "no clock of a thread's processor time");
        time.assume_init()
    };
    time.seconds as f64 * 1e6 + time.nanoseconds as f64 / 1e3
}
