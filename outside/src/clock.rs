//! Times of calls, in processor time of this thread, so that other work on the machine counts little.

use std::hint::black_box;

#[repr(C)]
struct Timespec {
    seconds: i64,
    nanoseconds: i64,
}

extern "C" {
    fn clock_gettime(clock: i32, time: *mut Timespec) -> i32;
}

/// CLOCK_THREAD_CPUTIME_ID of Linux.
const THREAD_CLOCK: i32 = 3;

/// Processor time of this thread, in seconds.
fn now() -> f64 {
    let mut time = Timespec { seconds: 0, nanoseconds: 0 };
    // Sound: the pointer is to a value of the layout that 64-bit Linux writes.
    let status = unsafe { clock_gettime(THREAD_CLOCK, &mut time) };
    assert_eq!(status, 0, "clock_gettime");
    time.seconds as f64 + time.nanoseconds as f64 * 1e-9
}

/// Batches of a job, and of one that takes more than 0.05 seconds.
const BATCHES: usize = 40;
const LONG_BATCHES: usize = 5;

/// Seconds of one call of a job, the mean over a batch of them.
pub fn batch(job: &mut dyn FnMut() -> u64, calls: usize) -> f64 {
    let start = now();
    for _ in 0..calls {
        black_box(job());
    }
    (now() - start) / calls as f64
}

/// How many calls take about a millisecond, if one takes so many seconds.
pub fn calls_for(once: f64) -> usize {
    ((1e-3 / once.max(1e-8)) as usize).clamp(1, 100_000)
}

/// Seconds that one call of each job takes: the least of several batches, the jobs in turn, so that
/// what disturbs the machine disturbs all of them. Long jobs have fewer batches, the first ones, so
/// that they do not empty the caches before every batch of the others.
pub fn seconds(jobs: &mut [&mut dyn FnMut() -> u64]) -> Vec<f64> {
    let mut least = vec![f64::MAX; jobs.len()];
    let mut calls = vec![1; jobs.len()];
    let mut batches = vec![BATCHES; jobs.len()];
    for (k, job) in jobs.iter_mut().enumerate() {
        let once = batch(job, 1);
        calls[k] = calls_for(once);
        if once > 0.05 {
            batches[k] = LONG_BATCHES;
        }
    }
    for turn in 0..BATCHES {
        for (k, job) in jobs.iter_mut().enumerate() {
            if turn < batches[k] {
                least[k] = least[k].min(batch(job, calls[k]));
            }
        }
    }
    least
}
