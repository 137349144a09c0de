//! Processor time, which other work on the machine disturbs less than the time on the wall.

#[repr(C)]
struct Time {
    seconds: i64,
    nanos: i64,
}

unsafe extern "C" {
    fn clock_gettime(clock: i32, to: *mut Time) -> i32;
}

/// Nanoseconds of processor time that this process has taken (Linux, 64 bits).
pub fn now() -> u64 {
    let mut time = Time { seconds: 0, nanos: 0 };
    // SAFETY: 2 is CLOCK_PROCESS_CPUTIME_ID, and a timespec is two words.
    let failed = unsafe { clock_gettime(2, &mut time) };
    assert_eq!(failed, 0);
    time.seconds as u64 * 1_000_000_000 + time.nanos as u64
}

/// What something answers, and how many nanoseconds it took.
pub fn timed<T>(job: impl FnOnce() -> T) -> (T, u64) {
    let start = now();
    let made = job();
    (made, now() - start)
}

/// How many nanoseconds `timed` tells of nothing, on average, as it takes time to read the clock.
pub fn of_nothing() -> u64 {
    (0..1_000).map(|_| timed(|| ()).1).sum::<u64>() / 1_000
}
