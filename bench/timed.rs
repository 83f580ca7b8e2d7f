//! Single calls, each timed: what the programs of the benchmarks share.
use std::time::{Duration, Instant};

/// The value below which this part of them lies.
pub fn percentile(values: &mut [f64], part: f64) -> f64 {
    values.sort_by(f64::total_cmp);
    values
        .get((values.len() as f64 * part) as usize)
        .copied()
        .unwrap_or(f64::NAN)
}

/// Does this call with 0 to 10 us of other work before each, until it says that it's over; the nanoseconds of each that
/// passed an item.
pub fn timed(seed: u64, mut call: impl FnMut() -> Option<bool>) -> Vec<f64> {
    let (mut random, mut times) = (seed, Vec::new());
    loop {
        random = random
            .wrapping_mul(6_364_136_223_846_793_005)
            .wrapping_add(1_442_695_040_888_963_407);
        let work = Duration::from_nanos((random >> 33) % 10_000);
        let start = Instant::now();
        while start.elapsed() < work {
            std::hint::spin_loop();
        }
        let start = Instant::now();
        let passed = call();
        let time = start.elapsed();
        match passed {
            Some(true) => times.push(time.as_nanos() as f64),
            Some(false) => std::thread::yield_now(),
            None => return times,
        }
    }
}
