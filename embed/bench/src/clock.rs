//! The time that this thread has had a processor: what else the machine does is not counted, and no peer waits for a device.

use std::ffi::{c_int, c_long};
use std::time::Duration;

#[repr(C)]
struct Timespec {
    seconds: i64,
    nanoseconds: c_long,
}

const THREAD_CPU_TIME: c_int = 3;

extern "C" {
    fn clock_gettime(clock: c_int, time: *mut Timespec) -> c_int;
}

pub fn now() -> Duration {
    let mut time = Timespec {
        seconds: 0,
        nanoseconds: 0,
    };
    // SAFETY: the call writes one time to where it is told.
    let failed = unsafe { clock_gettime(THREAD_CPU_TIME, &mut time) };
    assert_eq!(failed, 0, "the system has no clock of a thread's processor time");
    Duration::new(time.seconds as u64, time.nanoseconds as u32)
}

/// The nanoseconds of a request when `work` runs `requests` of them.
pub fn nanoseconds_each<T>(requests: usize, work: impl FnOnce() -> T) -> (f64, T) {
    let start = now();
    let answer = work();
    ((now() - start).as_nanos() as f64 / requests as f64, answer)
}
