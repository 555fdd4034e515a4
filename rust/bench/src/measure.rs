//! Taking times by turns.
//!
//! Times are the thread's own processor time, so that other programs on the machine disturb less.

pub const TURNS: usize = 31;

/// Nanoseconds of library and plain.
pub type Pair = (f64, f64);

/// The median nanoseconds of library and plain, run by turns, for one of `count` calls.
pub fn by_turns(count: usize, mut library: impl FnMut(), mut yardstick: impl FnMut()) -> Pair {
    library();
    yardstick();
    let (mut of_library, mut of_yardstick) = (Vec::new(), Vec::new());
    for turn in 0..TURNS {
        // who goes first changes
        if turn % 2 == 0 {
            of_library.push(time(&mut library));
            of_yardstick.push(time(&mut yardstick));
        } else {
            of_yardstick.push(time(&mut yardstick));
            of_library.push(time(&mut library));
        }
    }
    (median(of_library) / count as f64, median(of_yardstick) / count as f64)
}

/// The median nanoseconds of one of `count` calls, after a run that does not count.
pub fn alone(count: usize, mut f: impl FnMut()) -> f64 {
    alone_on(count, || (), |()| f())
}

/// The same on something that is made anew for each turn, outside the time.
pub fn alone_on<T>(count: usize, mut made: impl FnMut() -> T, mut f: impl FnMut(T)) -> f64 {
    f(made());
    let mut turn = || {
        let mut on = Some(made());
        time(&mut || on.take().into_iter().for_each(&mut f))
    };
    median((0..TURNS).map(|_| turn()).collect()) / count as f64
}

/// The nanoseconds of a run of `f`.
pub fn time(f: &mut impl FnMut()) -> f64 {
    let start = processor_time();
    f();
    (processor_time() - start) as f64
}

#[repr(C)]
struct Timespec {
    seconds: i64,
    nanoseconds: i64,
}

extern "C" {
    fn clock_gettime(clock: i32, time: *mut Timespec) -> i32;
}

/// Linux's CLOCK_THREAD_CPUTIME_ID, in nanoseconds. The clock's number and the two 64-bit fields are those of x86-64 Linux.
fn processor_time() -> i64 {
    let mut now = Timespec { seconds: 0, nanoseconds: 0 };
    // SAFETY: C's function, on a place of this function
    let failed = unsafe { clock_gettime(3, &mut now) };
    assert_eq!(failed, 0, "no clock for the thread's processor time");
    now.seconds * 1_000_000_000 + now.nanoseconds
}

pub fn median(mut times: Vec<f64>) -> f64 {
    times.sort_by(|a, b| a.total_cmp(b));
    times[times.len() / 2]
}
