//! How long a call takes, in the processor time of its thread: what other programs take of a busy machine is not in it.
use std::hint::black_box;

const THREAD_CLOCK: i32 = 3;
const SHORTEST: i64 = 20_000_000;

extern "C" {
    fn clock_gettime(clock: i32, seconds_and_nanoseconds: *mut [i64; 2]) -> i32;
}

fn now() -> i64 {
    let mut time = [0; 2];
    // the array is a 64-bit timespec
    let failed = unsafe { clock_gettime(THREAD_CLOCK, &mut time) };
    assert!(failed == 0);
    time[0] * 1_000_000_000 + time[1]
}

/// The nanoseconds of one run, by as many runs in a row as take 20 ms, after one or more that do not count.
pub fn nanoseconds<T>(mut run: impl FnMut() -> T) -> Vec<u8> {
    black_box(run());
    let mut runs = 1;
    loop {
        let start = now();
        for _ in 0..runs {
            black_box(run());
        }
        let spent = now() - start;
        if spent >= SHORTEST {
            return format!("{}\n", spent / runs).into_bytes();
        }
        runs *= 2;
    }
}
