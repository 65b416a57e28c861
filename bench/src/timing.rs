//! Times of functions, measured by turns, in processor time of this thread: what else runs on the machine does not count,
//! unless by shared caches and cores.

use std::time::Duration;

/// The most samples of each function, and the fewest, which are taken of what is slow.
pub const MOST_SAMPLES: usize = 51;
pub const FEWEST_SAMPLES: usize = 7;

/// More than the fewest samples are taken only within this time.
const PATIENCE: Duration = Duration::from_secs(3);

/// A sample is as many calls as take this long.
pub const SAMPLE: Duration = Duration::from_micros(500);

/// The median time of a call of each function. Samples of all alternate, so that they meet the same machine.
pub fn medians<const N: usize>(mut functions: [&mut dyn FnMut(); N]) -> [Duration; N] {
    let calls = functions.each_mut().map(calls_in_sample);
    let mut samples = [const { Vec::new() }; N];
    let start = processor_time();
    for taken in 0..MOST_SAMPLES {
        if taken >= FEWEST_SAMPLES && processor_time() - start > PATIENCE {
            break;
        }
        for ((function, &calls), samples) in functions.iter_mut().zip(&calls).zip(&mut samples) {
            samples.push(sample(function, calls));
        }
    }
    samples.map(median)
}

/// The time of one call, the median of three: for what takes long.
pub fn median_of_three(mut function: impl FnMut()) -> Duration {
    median((0..3).map(|_| sample(&mut function, 1)).collect())
}

pub fn once(mut function: impl FnMut()) -> Duration {
    elapsed(&mut function, 1)
}

fn calls_in_sample(function: &mut impl FnMut()) -> u32 {
    let mut calls = 1;
    while elapsed(function, calls) < SAMPLE {
        calls *= 2;
    }
    calls
}

/// The time of a call, the mean over so many.
fn sample(function: &mut impl FnMut(), calls: u32) -> Duration {
    elapsed(function, calls) / calls
}

fn elapsed(function: &mut impl FnMut(), calls: u32) -> Duration {
    let start = processor_time();
    for _ in 0..calls {
        function();
    }
    processor_time() - start
}

fn median(mut times: Vec<Duration>) -> Duration {
    times.sort_unstable();
    times[times.len() / 2]
}

/// A time as Linux has it on 64 bits.
#[repr(C)]
struct Timespec {
    seconds: i64,
    nanoseconds: i64,
}

/// The clock of the thread that asks.
const CLOCK_THREAD_CPUTIME_ID: i32 = 3;

unsafe extern "C" {
    fn clock_gettime(clock: i32, time: *mut Timespec) -> i32;
}

fn processor_time() -> Duration {
    let mut time = Timespec {
        seconds: 0,
        nanoseconds: 0,
    };
    // SAFETY: the pointer is to a value of the layout that the C library writes.
    let status = unsafe { clock_gettime(CLOCK_THREAD_CPUTIME_ID, &mut time) };
    assert_eq!(status, 0, "the clock can be read");
    Duration::new(time.seconds as u64, time.nanoseconds as u32)
}
