//! The processor time of a thread.

/// Seconds and nanoseconds, as C has them on this machine.
#[repr(C)]
struct Time(i64, i64);

unsafe extern "C" {
    fn clock_gettime(clock: i32, time: *mut Time) -> i32;
}

/// The processor time that the work takes on this thread, in nanoseconds.
pub fn time<T>(work: impl FnOnce() -> T) -> (f64, T) {
    let now = || {
        let mut t = Time(0, 0);
        // SAFETY: 3 is CLOCK_THREAD_CPUTIME_ID, and the struct is C's.
        assert_eq!(unsafe { clock_gettime(3, &mut t) }, 0);
        t.0 as f64 * 1e9 + t.1 as f64
    };
    let from = now();
    let made = work();
    (now() - from, made)
}
