//! The processor time of this thread, which other programs on the machine do not lengthen by taking turns.

use std::time::Duration;

#[repr(C)]
struct Timespec {
    seconds: i64,
    nanoseconds: i64,
}

const THREAD_CPU_TIME: i32 = 3;

unsafe extern "C" {
    fn clock_gettime(clock: i32, time: *mut Timespec) -> i32;
}

pub struct Start(Duration);

fn now() -> Duration {
    let mut time = Timespec {
        seconds: 0,
        nanoseconds: 0,
    };
    let status = unsafe { clock_gettime(THREAD_CPU_TIME, &mut time) };
    assert_eq!(status, 0, "this system has no processor time of a thread");
    Duration::new(time.seconds as u64, time.nanoseconds as u32)
}

impl Start {
    pub fn now() -> Start {
        Start(now())
    }

    pub fn elapsed(&self) -> Duration {
        now() - self.0
    }
}
