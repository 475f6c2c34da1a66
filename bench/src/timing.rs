//! Medians of interleaved runs, in the thread's own processor time: what other programs take on a busy machine does not count.

/// Something that is timed: `ready` is outside the timed part.
pub trait Timed {
    fn ready(&mut self) {}
    fn call(&mut self);
}

#[repr(C)]
struct Moment {
    seconds: i64,
    nanoseconds: i64,
}

extern "C" {
    fn clock_gettime(clock: i32, moment: *mut Moment) -> i32;
}

const THREAD_CPUTIME: i32 = 3;

fn now() -> i64 {
    let mut moment = Moment {
        seconds: 0,
        nanoseconds: 0,
    };
    // Linux's own structure on a 64-bit machine.
    let answer = unsafe { clock_gettime(THREAD_CPUTIME, &mut moment) };
    assert_eq!(answer, 0);
    1_000_000_000 * moment.seconds + moment.nanoseconds
}

/// The median nanoseconds of one call of each, in turn A, B, C, .., A, B, C, .., after two rounds that do not count.
pub fn medians(runs: usize, mut timed: Vec<impl Timed>) -> Vec<f64> {
    let mut times = vec![Vec::new(); timed.len()];
    for round in 0..runs + 2 {
        for (one, times) in timed.iter_mut().zip(&mut times) {
            one.ready();
            let start = now();
            one.call();
            let time = now() - start;
            if round >= 2 {
                times.push(time);
            }
        }
    }
    let median = |mut times: Vec<i64>| {
        times.sort_unstable();
        times[times.len() / 2] as f64
    };
    times.into_iter().map(median).collect()
}
