//! The time that this thread has had a processor for: what else the machine does then counts for little.

#[repr(C)]
struct Moment {
    seconds: i64,
    nanoseconds: i64,
}

unsafe extern "C" {
    fn clock_gettime(clock: i32, to: *mut Moment) -> i32;
}

const OF_THIS_THREAD: i32 = 3;

fn now() -> f64 {
    let mut moment = Moment { seconds: 0, nanoseconds: 0 };
    // The moment is this function's own, and outlives the call.
    let number = unsafe { clock_gettime(OF_THIS_THREAD, &mut moment) };
    assert_eq!(number, 0);
    moment.seconds as f64 + moment.nanoseconds as f64 * 1e-9
}

pub(crate) fn time(work: impl FnOnce()) -> f64 {
    let start = now();
    work();
    now() - start
}
