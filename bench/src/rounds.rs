//! Two ways to the same answers, timed in turns.
use std::fmt::{Display, Formatter};

/// How often each way has its turn.
pub const ROUNDS: usize = 31;

/// How many seconds a turn of the faster way lasts at least: many times what a look at the clock takes.
const TURN: f64 = 0.002;

/// A row of the table: the median cost of a unit on each side, and the quartiles of the ratio over the rounds.
pub struct Row {
    what: String,
    units: usize,
    port: f64,
    rust: f64,
    ratio: [f64; 3],
}

impl Row {
    pub const HEAD: &str = "| What | units | port, ns a unit | Rust, ns a unit | ratio | quartiles |\n|---|---|---|---|---|---|";
}

impl Display for Row {
    fn fmt(&self, f: &mut Formatter<'_>) -> std::fmt::Result {
        let Row { what, units, port, rust, ratio: [low, middle, high] } = self;
        write!(f, "| {what} | {units} | {port:.2} | {rust:.2} | **{middle:.2}** | {low:.2} to {high:.2} |")
    }
}

/// Times two ways to do so many units, the port's and the Rust's. In every second round the Rust goes first.
pub fn measure(what: &str, units: usize, mut port: impl FnMut(), mut rust: impl FnMut()) -> Row {
    let repeats = repeats_for(&mut port).max(repeats_for(&mut rust));
    let mut turn = |port_first: bool| {
        if port_first {
            let p = time(repeats, &mut port);
            (p, time(repeats, &mut rust))
        } else {
            let r = time(repeats, &mut rust);
            (time(repeats, &mut port), r)
        }
    };
    let times: Vec<(f64, f64)> = (0..ROUNDS).map(|round| turn(round % 2 == 0)).collect();
    let unit = 1e9 / (repeats * units) as f64;
    Row {
        what: what.to_string(),
        units,
        port: quartiles(times.iter().map(|(p, _)| p * unit))[1],
        rust: quartiles(times.iter().map(|(_, r)| r * unit))[1],
        ratio: quartiles(times.iter().map(|(p, r)| p / r)),
    }
}

/// How often a way has to be gone in one turn.
fn repeats_for(way: &mut impl FnMut()) -> usize {
    let mut repeats = 1;
    while time(repeats, way) < TURN {
        repeats *= 2;
    }
    repeats
}

/// The seconds that a way takes, gone so often.
fn time(repeats: usize, way: &mut impl FnMut()) -> f64 {
    let start = processor_time();
    for _ in 0..repeats {
        way();
    }
    processor_time() - start
}

/// The seconds that this thread has had a processor: on a busy machine, what others take does not count.
fn processor_time() -> f64 {
    #[repr(C)]
    struct Timespec {
        seconds: i64,
        nanoseconds: i64,
    }
    unsafe extern "C" {
        fn clock_gettime(clock: i32, time: *mut Timespec) -> i32;
    }
    const THREAD_CPUTIME: i32 = 3;
    let mut now = Timespec { seconds: 0, nanoseconds: 0 };
    // SAFETY: the C library of a 64-bit Linux, which std links, has this function, and it writes two numbers of 64 bits.
    assert!(unsafe { clock_gettime(THREAD_CPUTIME, &mut now) } == 0, "no clock of the thread");
    now.seconds as f64 + now.nanoseconds as f64 * 1e-9
}

/// The lower quartile, the median and the upper quartile.
fn quartiles(values: impl Iterator<Item = f64>) -> [f64; 3] {
    let mut sorted: Vec<f64> = values.collect();
    sorted.sort_by(f64::total_cmp);
    [1, 2, 3].map(|k| sorted[(sorted.len() - 1) * k / 4])
}
