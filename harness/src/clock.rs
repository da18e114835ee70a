//! Processor time of this thread, which other programs on the machine do not lengthen.

use std::time::Duration;

#[repr(C)]
struct Time {
    seconds: i64,
    nanoseconds: i64,
}

extern "C" {
    fn clock_gettime(clock: i32, time: *mut Time) -> i32;
}

/// `CLOCK_THREAD_CPUTIME_ID` of Linux.
const THREAD: i32 = 3;

/// The processor time that this thread has taken so far.
fn taken() -> Duration {
    let mut time = Time {
        seconds: 0,
        nanoseconds: 0,
    };
    // The pointer is to a value of the layout that the call writes on 64-bit Linux.
    let failed = unsafe { clock_gettime(THREAD, &mut time) };
    assert_eq!(failed, 0, "Linux has a clock for each thread");
    Duration::new(time.seconds as u64, time.nanoseconds as u32)
}

/// The processor time of one call.
pub fn of(call: impl FnOnce()) -> Duration {
    let start = taken();
    call();
    taken() - start
}

/// The least processor time of so many calls, at least one.
pub fn least(times: u32, mut call: impl FnMut()) -> Duration {
    let first = of(&mut call);
    (1..times).fold(first, |least, _| least.min(of(&mut call)))
}
