//! The time that the thread itself has run. Other work of the machine does not
//! count, so ratios hold on a busy machine too. It is that of 64-bit Linux.

use std::time::Duration;

#[derive(Default)]
#[repr(C)]
struct Timespec {
    seconds: i64,
    nanoseconds: i64,
}

extern "C" {
    fn clock_gettime(clock: i32, time: *mut Timespec) -> i32;
}

/// The clock of the thread's own time.
const THREAD_CPU_TIME: i32 = 3;

pub fn own_time() -> Duration {
    let mut time = Timespec::default();
    // Sound: the call writes the two numbers that it is lent.
    let result = unsafe { clock_gettime(THREAD_CPU_TIME, &mut time) };
    assert_eq!(result, 0, "the system keeps the time of a thread");
    Duration::new(time.seconds as u64, time.nanoseconds as u32)
}
