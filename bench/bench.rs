//! bench: every entry of the library against the published Rust in one run. run.sh puts these files beside the Rust's modules and
//! oracle/'s days and exports, and calls
//!   bench count               one call of each side of each row under callgrind, a dump a call
//!   bench time DUMPS REPORT   times each row, and writes the tables with the dumps' counts to REPORT
//!   bench functions DUMPS     the instructions of each call of the dumps by function
//! ROWS in the environment is a part of the names of the rows to run; all where it isn't set.
mod constructive;
mod distance;
mod evaluation;
mod local_search;
mod models;
mod oracle;

mod days;
mod planner;

mod callgrind;
mod chain;
mod checks;
mod dumps;
mod fleet;
mod improve;
mod published;
mod rearrange;
mod report;
mod rows;
mod timed_days;
mod timing;
use rows::{Bench, Way};
use std::path::Path;

/// Every row, each group in a file of its own.
fn run_all(bench: &mut Bench) {
    checks::rows(bench);
    improve::rows(bench);
    rearrange::rows(bench);
    fleet::rows(bench);
}

fn main() {
    let words: Vec<String> = std::env::args().skip(1).collect();
    match words.iter().map(String::as_str).collect::<Vec<_>>()[..] {
        ["count"] => run_all(&mut Bench::new(Way::Count)),
        ["time", dumps, report] => {
            let counts = dumps::totals(Path::new(dumps));
            let mut bench = Bench::new(Way::Time(counts));
            run_all(&mut bench);
            std::fs::write(report, report::tables(&bench.figures)).expect("the report can't be written");
        }
        ["functions", dumps] => print!("{}", dumps::by_function(Path::new(dumps))),
        _ => {
            eprintln!("usage: bench count | bench time DUMPS REPORT | bench functions DUMPS");
            std::process::exit(2);
        }
    }
}
