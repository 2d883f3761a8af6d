//! The processor time that this thread has used, so that what else runs on the machine does not
//! count.

use std::time::Duration;

#[repr(C)]
struct Timespec {
    seconds: i64,
    nanoseconds: i64,
}

extern "C" {
    fn clock_gettime(clock: i32, time: *mut Timespec) -> i32;
}

/// Linux's number of the clock of the calling thread.
const THREAD: i32 = 3;

pub fn used() -> Duration {
    let mut time = Timespec {
        seconds: 0,
        nanoseconds: 0,
    };
    // SAFETY: the pointer is to a timespec as x86-64 Linux has it, and nothing else uses it.
    let failed = unsafe { clock_gettime(THREAD, &mut time) };
    assert_eq!(failed, 0, "there is a clock of the thread");
    Duration::new(time.seconds as u64, time.nanoseconds as u32)
}

#[cfg(test)]
mod tests {
    use super::*;
    use std::hint::black_box;
    use std::thread::sleep;

    #[test]
    fn work_counts_and_sleep_does_not() {
        let began = used();
        let while_working = || used() - began;
        while while_working() < Duration::from_millis(5) {
            black_box(0);
        }
        let before = used();
        sleep(Duration::from_millis(50));
        assert!(used() - before < Duration::from_millis(25));
    }
}
