//! The least time of some work.

#[repr(C)]
struct Timespec {
    seconds: i64,
    nanoseconds: i64,
}

const THREAD_CPU_TIME: i32 = 3; // CLOCK_THREAD_CPUTIME_ID

extern "C" {
    fn clock_gettime(clock: i32, time: *mut Timespec) -> i32;
}

/// Times something, and keeps the least time of one of so many pixels or calls.
pub fn least(kept: &mut Option<f64>, count: usize, work: impl FnOnce()) {
    let begun = now();
    work();
    let took = (now() - begun) / count as f64;
    *kept = Some(kept.map_or(took, |before| before.min(took)));
}

/// The time that this thread has computed, in nanoseconds; another program's turns do not count.
fn now() -> f64 {
    let mut time = Timespec { seconds: 0, nanoseconds: 0 };
    assert_eq!(unsafe { clock_gettime(THREAD_CPU_TIME, &mut time) }, 0);
    time.seconds as f64 * 1e9 + time.nanoseconds as f64
}
