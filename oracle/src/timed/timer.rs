//! How long something takes, also where other programs run in between.

use std::time::Instant;

/// When the work began.
pub struct Timer {
    on_processor: Option<f64>,
    by_clock: Instant,
}

impl Timer {
    pub fn start() -> Timer {
        Timer {
            on_processor: on_processor(),
            by_clock: Instant::now(),
        }
    }

    /// The seconds by the clock, or those that this thread ran, whichever are fewer: the clock counts other programs too, and
    /// to read how long the thread ran takes part of a microsecond.
    pub fn seconds(&self) -> f64 {
        let by_clock = self.by_clock.elapsed().as_secs_f64();
        match (self.on_processor, on_processor()) {
            (Some(began), Some(ended)) => by_clock.min(ended - began),
            _ => by_clock,
        }
    }
}

/// How long this thread has run, where the system says it.
#[cfg(all(target_os = "linux", target_pointer_width = "64"))]
fn on_processor() -> Option<f64> {
    const THREAD_CPU_TIME: i32 = 3;
    #[repr(C)]
    struct Time {
        seconds: i64,
        nanoseconds: i64,
    }
    unsafe extern "C" {
        fn clock_gettime(clock: i32, time: *mut Time) -> i32;
    }
    let mut time = Time {
        seconds: 0,
        nanoseconds: 0,
    };
    // SAFETY: the system's `timespec` has these two fields on this target, and the function writes no more than them.
    let status = unsafe { clock_gettime(THREAD_CPU_TIME, &mut time) };
    (status == 0).then_some(time.seconds as f64 + time.nanoseconds as f64 / 1e9)
}

#[cfg(not(all(target_os = "linux", target_pointer_width = "64")))]
fn on_processor() -> Option<f64> {
    None
}

#[cfg(test)]
mod tests {
    use super::*;
    use std::time::Duration;

    #[test]
    fn sleep_is_no_work() {
        let timer = Timer::start();
        std::thread::sleep(Duration::from_millis(50));
        let seconds = timer.seconds();
        assert!((0.0..0.06).contains(&seconds) || on_processor().is_none());
    }

    #[test]
    fn work_takes_time() {
        let timer = Timer::start();
        let sum: u64 = (0..1_000_000u64).map(std::hint::black_box).sum();
        assert_eq!(sum, 499_999_500_000);
        assert!((0.000_05..10.0).contains(&timer.seconds()));
    }
}
