//! The time that this thread has had a processor, so that other work on the machine is not measured.

/// As `struct timespec` of 64-bit Linux.
#[repr(C)]
struct Time {
    seconds: i64,
    nanoseconds: i64,
}

/// `CLOCK_THREAD_CPUTIME_ID` of Linux.
const TIME_OF_THREAD: i32 = 3;

extern "C" {
    fn clock_gettime(clock: i32, time: *mut Time) -> i32;
}

/// The nanoseconds that it takes this thread to do the work.
pub fn nanoseconds_of(work: impl FnOnce()) -> f64 {
    let start = thread_nanoseconds();
    work();
    (thread_nanoseconds() - start) as f64
}

fn thread_nanoseconds() -> i64 {
    let mut time = Time {
        seconds: 0,
        nanoseconds: 0,
    };
    let answer = unsafe { clock_gettime(TIME_OF_THREAD, &mut time) };
    assert_eq!(answer, 0, "the thread's time can be read");
    time.seconds * 1_000_000_000 + time.nanoseconds
}

pub fn median(mut times: Vec<f64>) -> f64 {
    times.sort_by(f64::total_cmp);
    times[times.len() / 2]
}
