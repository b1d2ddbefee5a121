//! Processor time. On a machine that does other things too it says more about a search than the
//! time that passes. For 64-bit Linux.

use std::time::Duration;

/// `struct timespec` of C.
#[repr(C)]
struct Timespec {
    seconds: i64,
    nanoseconds: i64,
}

extern "C" {
    fn clock_gettime(clock: i32, time: *mut Timespec) -> i32;
    fn clock_getcpuclockid(process: i32, clock: *mut i32) -> i32;
}

/// `CLOCK_THREAD_CPUTIME_ID` of C.
const THIS_THREAD: i32 = 3;

fn time_of(clock: i32) -> Option<Duration> {
    let mut time = Timespec {
        seconds: 0,
        nanoseconds: 0,
    };
    // SAFETY: the pointer comes from a reference, and the call keeps none.
    let status = unsafe { clock_gettime(clock, &mut time) };
    (status == 0).then(|| Duration::new(time.seconds as u64, time.nanoseconds as u32))
}

/// What this thread has taken so far.
pub fn thread_time() -> Duration {
    time_of(THIS_THREAD).expect("Linux has a clock for each thread")
}

/// What a process has taken so far; none if there is no such process.
pub fn process_time(process: u32) -> Option<Duration> {
    let mut clock = 0;
    // SAFETY: the pointer comes from a reference, and the call keeps none.
    let status = unsafe { clock_getcpuclockid(process as i32, &mut clock) };
    if status == 0 {
        time_of(clock)
    } else {
        None
    }
}
