//! How long a call takes, in the processor's own time, so that other work on the machine does not count.
use std::time::Duration;

/// No text within its limits, or past them, may take longer to read or to refuse.
pub const LIMIT: Duration = Duration::from_millis(50);

#[repr(C)]
struct Time {
    seconds: i64,
    nanoseconds: i64,
}

extern "C" {
    fn clock_gettime(clock: i32, time: *mut Time) -> i32;
}

const THREAD_TIME: i32 = 3;

fn now() -> Duration {
    let mut t = Time { seconds: 0, nanoseconds: 0 };
    assert_eq!(unsafe { clock_gettime(THREAD_TIME, &mut t) }, 0, "the thread's clock");
    Duration::new(t.seconds as u64, t.nanoseconds as u32)
}

/// What a call answers, and how long it took.
pub fn timed<T>(call: impl FnOnce() -> T) -> (T, Duration) {
    let start = now();
    let answer = call();
    (answer, now() - start)
}

/// What a reading call answers; it fails if the call took longer than the limit.
pub fn within<T>(name: &str, call: impl FnOnce() -> T) -> T {
    let (answer, time) = timed(call);
    assert!(time <= LIMIT, "{name}: took {time:?}");
    answer
}

/// Whether a call accepts, which may then have searched for rows; it fails if the call refused and took longer than the limit.
pub fn refused_within(name: &str, call: impl FnOnce() -> bool) -> bool {
    let (accepted, time) = timed(call);
    assert!(accepted || time <= LIMIT, "{name}: took {time:?} to refuse");
    accepted
}
