//! Times of the sides of a row, call by call in turn.
use crate::rows::Sides;

/// Of a row's rounds, in nanoseconds a call of the thread's own time.
const ROW: f64 = 0.3e9;
/// A round has as many calls of each side as the Rust makes in this time, and one at least.
const ROUND: f64 = 20e3;
const FEWEST: usize = 7;
const MOST: usize = 2001;

/// Medians over the rounds. A ratio is the median of the rounds' own ratios: what slows a round down slows all of its sides.
#[derive(Clone, Copy)]
pub struct Times {
    /// Nanoseconds a call.
    pub rust: f64,
    pub refusals: f64,
    pub entry: f64,
    /// Of the entry less the refusals, to the Rust.
    pub less: f64,
    /// Of the whole entry to the Rust.
    pub whole: f64,
    /// Of the clock alone to the Rust, where there is one.
    pub chain: Option<f64>,
}

pub fn times(sides: &mut Sides) -> Times {
    let first = rounds(sides, 3, 1);
    let calls = (ROUND / first.rust).ceil() as usize;
    let round = calls as f64 * (first.rust + first.refusals + first.entry);
    let count = ((ROW / round) as usize).clamp(FEWEST, MOST);
    rounds(sides, count, calls)
}

fn rounds(sides: &mut Sides, count: usize, calls: usize) -> Times {
    let mut taken: Vec<[f64; 4]> = Vec::new();
    for _ in 0..count {
        let chain = sides.chain.as_mut().map_or(0.0, |chain| time(chain, calls));
        taken.push([time(sides.rust, calls), time(sides.refusals, calls), time(sides.entry, calls), chain]);
    }
    Times {
        rust: median(&taken, |round| round[0]),
        refusals: median(&taken, |round| round[1]),
        entry: median(&taken, |round| round[2]),
        less: median(&taken, |round| (round[2] - round[1]) / round[0]),
        whole: median(&taken, |round| round[2] / round[0]),
        chain: sides.chain.as_ref().map(|_| median(&taken, |round| round[3] / round[0])),
    }
}

fn median(rounds: &[[f64; 4]], figure: fn(&[f64; 4]) -> f64) -> f64 {
    let mut figures: Vec<f64> = rounds.iter().map(figure).collect();
    figures.sort_by(f64::total_cmp);
    figures[figures.len() / 2]
}

fn time(side: &mut dyn FnMut(), calls: usize) -> f64 {
    let start = thread_time();
    for _ in 0..calls {
        side();
    }
    (thread_time() - start) / calls as f64
}

/// The time that this thread has run, in nanoseconds: while another program has the core it stands still.
fn thread_time() -> f64 {
    #[repr(C)]
    struct Timespec {
        seconds: i64,
        nanoseconds: i64,
    }
    extern "C" {
        fn clock_gettime(clock: i32, time: *mut Timespec) -> i32;
    }
    const CLOCK_THREAD_CPUTIME_ID: i32 = 3;
    let mut time = Timespec { seconds: 0, nanoseconds: 0 };
    // SAFETY: the pointer is a local's, of the C library's own form.
    unsafe { clock_gettime(CLOCK_THREAD_CPUTIME_ID, &mut time) };
    time.seconds as f64 * 1e9 + time.nanoseconds as f64
}
