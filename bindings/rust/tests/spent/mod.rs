//! Processor time, as Linux counts it: it doesn't depend on what else the machine does.
use std::time::Duration;

unsafe extern "C" {
    safe fn clock_gettime(clock: i32, time: &mut [isize; 2]) -> i32;
}

fn of_clock(number: i32) -> Duration {
    let mut time = [0; 2];
    assert_eq!(clock_gettime(number, &mut time), 0);
    Duration::new(time[0] as u64, time[1] as u32)
}

/// For how long this thread has run.
pub fn spent() -> Duration {
    of_clock(3)
}

/// For how long all threads of this process have run.
#[allow(dead_code)]
pub fn spent_by_all() -> Duration {
    of_clock(2)
}
