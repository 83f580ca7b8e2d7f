//! The processors' time for this process, which std doesn't report.

#[repr(C)]
struct Timespec {
    seconds: i64,
    nanoseconds: i64,
}

unsafe extern "C" {
    fn clock_gettime(clock: i32, time: &mut Timespec) -> i32;
}

/// The nanoseconds that all processors gave this process, by clock 2, or this thread, by clock 3.
pub fn processors(clock: i32) -> f64 {
    let mut time = Timespec {
        seconds: 0,
        nanoseconds: 0,
    };
    // SAFETY: the C library's declaration on a 64-bit Linux.
    assert_eq!(
        unsafe { clock_gettime(clock, &mut time) },
        0,
        "there is no such clock"
    );
    time.seconds as f64 * 1e9 + time.nanoseconds as f64
}
