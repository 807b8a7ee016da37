//! Processor time: other work on the machine then counts less.

#[repr(C)]
struct TimeSpec {
    seconds: i64,
    nanoseconds: i64,
}

const PROCESS_CPUTIME: i32 = 2;
const THREAD_CPUTIME: i32 = 3;

extern "C" {
    fn clock_gettime(clock: i32, time: *mut TimeSpec) -> i32;
}

/// Seconds of processor time that this thread has used.
pub fn now() -> f64 {
    read(THREAD_CPUTIME)
}

/// Seconds of processor time that all threads of this process have used.
pub fn of_process() -> f64 {
    read(PROCESS_CPUTIME)
}

fn read(clock: i32) -> f64 {
    let mut time = TimeSpec { seconds: 0, nanoseconds: 0 };
    // Writes one time into a place of the right layout.
    let done = unsafe { clock_gettime(clock, &mut time) };
    assert_eq!(done, 0, "no such clock");
    time.seconds as f64 + time.nanoseconds as f64 * 1e-9
}
