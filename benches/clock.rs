//! The clock of the benchmarks.
use std::time::Instant;

/// Microseconds for each of so many calls.
fn each(count: usize, call: &mut impl FnMut(usize) -> i64) -> f64 {
    let start = Instant::now();
    let mut results = 0;
    for i in 0..count {
        results += call(i);
    }
    assert!(results > 0);
    start.elapsed().as_secs_f64() * 1e6 / count as f64
}

/// Microseconds per call, the median of 9 runs of some 20 milliseconds each.
pub fn per_call(mut call: impl FnMut(usize) -> i64) -> f64 {
    let count = (20_000.0 / each(64, &mut call)) as usize + 64;
    let mut runs: Vec<f64> = (0..9).map(|_| each(count, &mut call)).collect();
    runs.sort_by(f64::total_cmp);
    runs[4]
}
