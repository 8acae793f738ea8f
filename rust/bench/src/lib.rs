//! How two are timed against each other.
pub mod leaves;

use std::hint::black_box;

/// This thread's CPU time in nanoseconds, which other work on the machine does not count into.
pub fn cpu_time() -> u64 {
    #[repr(C)]
    struct Timespec {
        seconds: i64,
        nanoseconds: i64,
    }
    unsafe extern "C" {
        fn clock_gettime(clock: i32, time: *mut Timespec) -> i32;
    }
    const CLOCK_THREAD_CPUTIME_ID: i32 = 3;
    let mut time = Timespec { seconds: 0, nanoseconds: 0 };
    unsafe { clock_gettime(CLOCK_THREAD_CPUTIME_ID, &mut time) };
    time.seconds as u64 * 1_000_000_000 + time.nanoseconds as u64
}

/// Nanoseconds between two looks at the clock with nothing in between.
pub fn clock() -> f64 {
    let look = || {
        let start = cpu_time();
        black_box(());
        (cpu_time() - start) as f64
    };
    median((0..1001).map(|_| look()).collect())
}

/// Median times of the two, and the median of their quotients.
pub struct Times {
    /// Of what the port is compared with.
    pub other: f64,
    pub port: f64,
    pub ratio: f64,
}

impl Times {
    /// A line of a table. The aim is how many times as fast as the other the port is to be.
    pub fn row(&self, name: &str, aim: Option<f64>) -> String {
        let aim = aim.map_or("no aim".into(), |aim| format!("{aim:.2}, {}", if self.ratio >= aim { "met" } else { "not met" }));
        format!("| {name} | {} | {} | {:.2} | {aim} |", short(self.other), short(self.port), self.ratio)
    }
}

/// Three digits are enough.
fn short(nanoseconds: f64) -> String {
    format!("{nanoseconds:.*}", usize::from(nanoseconds < 100.0))
}

/// Rounds in which both take a turn, the other first, so that a change of the machine's clock rate meets both.
pub fn by_turns(rounds: usize, mut round: impl FnMut() -> (f64, f64)) -> Times {
    let times: Vec<(f64, f64)> = (0..rounds).map(|_| round()).collect();
    let median_of = |part: fn(&(f64, f64)) -> f64| median(times.iter().map(part).collect());
    Times { other: median_of(|times| times.0), port: median_of(|times| times.1), ratio: median_of(|times| times.0 / times.1) }
}

pub fn median(mut times: Vec<f64>) -> f64 {
    times.sort_by(f64::total_cmp);
    times[times.len() / 2]
}

/// Bytes that look like noise, the same each time.
pub fn noise<const N: usize>() -> [u8; N] {
    let mut state = 12345_u32;
    std::array::from_fn(|_| {
        state = state.wrapping_mul(1_664_525).wrapping_add(1_013_904_223);
        (state >> 24) as u8
    })
}
