//! Two clocks: the wall's, and the processor time of this thread, from which time that the machine gave to
//! others is left out.

use std::time::Instant;

#[repr(C)]
struct Timespec {
    seconds: i64,
    nanoseconds: i64,
}

const THREAD_CPUTIME: i32 = 3;

extern "C" {
    fn clock_gettime(clock: i32, time: *mut Timespec) -> i32;
}

fn processor() -> f64 {
    let mut time = Timespec { seconds: 0, nanoseconds: 0 };
    // The clock exists on every Linux, and the pointer is to a local of the call's type.
    unsafe { clock_gettime(THREAD_CPUTIME, &mut time) };
    time.seconds as f64 * 1e9 + time.nanoseconds as f64
}

/// What a piece of work took, in nanoseconds by each clock.
#[derive(Clone, Copy)]
pub struct Spent {
    pub wall: f64,
    pub processor: f64,
}

pub fn timed(work: impl FnOnce()) -> Spent {
    let before = processor();
    let start = Instant::now();
    work();
    let wall = start.elapsed().as_nanos() as f64;
    Spent { wall, processor: processor() - before }
}
