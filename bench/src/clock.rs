//! Time that this thread was on a processor, so that what runs beside it does not count.

use std::time::Duration;

#[cfg(target_os = "linux")]
pub fn now() -> Duration {
    #[repr(C)]
    struct Timespec {
        seconds: i64,
        nanoseconds: i64,
    }
    extern "C" {
        fn clock_gettime(clock: i32, time: *mut Timespec) -> i32;
    }
    const THREAD: i32 = 3;
    let mut time = Timespec { seconds: 0, nanoseconds: 0 };
    // SAFETY: on 64-bit Linux a timespec is these two numbers, and it is alive for the call.
    let status = unsafe { clock_gettime(THREAD, &mut time) };
    assert_eq!(status, 0, "Linux has a clock for each thread");
    Duration::new(time.seconds as u64, time.nanoseconds as u32)
}

/// Elsewhere the time that goes by.
#[cfg(not(target_os = "linux"))]
pub fn now() -> Duration {
    use std::sync::OnceLock;
    use std::time::Instant;
    static START: OnceLock<Instant> = OnceLock::new();
    START.get_or_init(Instant::now).elapsed()
}

#[cfg(test)]
mod tests {
    use super::*;

    /// Work takes time, and waiting takes next to none.
    #[test]
    fn waiting_is_not_counted() {
        let start = now();
        std::thread::sleep(Duration::from_millis(50));
        let waited = now() - start;
        let mut sum = 0_u64;
        while now() - start < Duration::from_millis(30) {
            sum = std::hint::black_box(sum + 1);
        }
        assert!(waited < Duration::from_millis(20) && sum > 0, "{waited:?}");
    }
}
