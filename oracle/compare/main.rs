//! compare: runs the reference and the port over many days and compares line by line.
//!   compare [--families all|NAME,..] [--seed N] [--from N] [--count N] [--runs checks|engines|all|NAME,..] [--batch N]
//!           [--show N] [--refusals 1] [--reference PROGRAM] [--port PROGRAM] [DAYS ..]
//! The days are generated, or read from the files named. With --refusals 1 they are damaged days: where document 01
//! refuses, its number is expected, and else the reference's line. Of the first N differences (--show, 3) the day is shrunk
//! and printed with both answers. The exit status is 1 where there was a difference.
#[path = "../days/mod.rs"]
mod days;
mod expected;
mod programs;
mod show;
mod shrink;
use days::day::Day;
use days::options::Options;
use days::text::days_of_file;
use days::{damage, families};
use expected::{expected, refusals};
use programs::{Lines, Program};
use std::collections::BTreeMap;

const NAMES: [&str; 10] = ["families", "seed", "from", "count", "runs", "batch", "show", "refusals", "reference", "port"];

/// Where days come from.
struct Source {
    families: Vec<usize>,
    seed: u64,
    runs: String,
    damaged: bool,
    end: u64,
}

impl Source {
    fn batch(&self, from: u64, size: u64) -> Vec<Day> {
        let to = from.saturating_add(size).min(self.end);
        let engines = families::engines_named(&self.runs);
        if self.damaged {
            return (from..to).map(|number| damage::day(self.seed, number, &engines)).collect();
        }
        families::days(&self.families, self.seed, from, to, false, &engines)
    }
}

struct Comparison {
    reference: Program,
    port: Program,
    /// Whether refused days may stand among those tried.
    damaged: bool,
    /// How many differences are still to be shown.
    show: u64,
    /// Runs by the kind of line expected.
    runs: BTreeMap<String, u64>,
    /// Differences by engine.
    differences: BTreeMap<String, u64>,
}

fn main() {
    let options = Options::read(&NAMES);
    let beside = |name: &str| std::env::current_exe().unwrap().with_file_name(name).to_string_lossy().into_owned();
    let damaged = options.number("refusals", 0) != 0;
    let mut comparison = Comparison {
        reference: Program::new(options.text("reference", &beside("reference"))),
        port: Program::new(options.text("port", &beside("port"))),
        damaged,
        show: options.number("show", 3),
        runs: BTreeMap::new(),
        differences: BTreeMap::new(),
    };
    if options.words.is_empty() {
        generated(&options, damaged, &mut comparison);
    }
    for file in &options.words {
        comparison.batch(&days_of_file(file), Vec::new);
    }
    comparison.report();
}

fn generated(options: &Options, damaged: bool, comparison: &mut Comparison) {
    let (from, size) = (options.number("from", 0), options.number("batch", 1000).max(1));
    let source = Source {
        families: families::families_named(&options.text("families", "all")),
        seed: options.number("seed", 1),
        runs: options.text("runs", "checks"),
        damaged,
        end: from + options.number("count", 32_000),
    };
    let mut days = source.batch(from, size);
    let mut at = from;
    while !days.is_empty() {
        at += size;
        days = comparison.batch(&days, || source.batch(at, size));
    }
}

/// The words of a line by which runs are counted: the engine, the refusal, the case of the answer, and of an engine's
/// run the end, with 0 where it made no move.
fn kind(line: &str) -> &str {
    let upto = |words: usize| line.match_indices(' ').nth(words - 1).map_or(line, |(end, _)| &line[..end]);
    let mut words = line.split(' ');
    match (words.next(), words.next(), words.next()) {
        (_, Some("refused"), _) => line,
        (Some("distance" | "table"), ..) => upto(1),
        (Some("schedule"), Some("some"), _) if line.ends_with("- -") => "schedule some, the break left out",
        (_, Some("settled" | "stopped"), Some("0")) => upto(3),
        _ => upto(2),
    }
}

impl Comparison {
    /// Compares one batch, while the next is being made.
    fn batch(&mut self, days: &[Day], next: impl FnOnce() -> Vec<Day>) -> Vec<Day> {
        let (reference, port) = (&self.reference, &self.port);
        let (wanted, given, next) = std::thread::scope(|scope| {
            let wanted = scope.spawn(|| expected(reference, days));
            let given = scope.spawn(|| port.answers(days));
            let next = next();
            (wanted.join().unwrap(), given.join().unwrap(), next)
        });
        for (number, day) in days.iter().enumerate() {
            self.day(day, &wanted[number], &given[number]);
        }
        next
    }

    fn day(&mut self, day: &Day, wanted: &Lines, given: &Lines) {
        for (run, (wanted, given)) in wanted.iter().zip(given).enumerate() {
            let kind = kind(wanted);
            match self.runs.get_mut(kind) {
                Some(count) => *count += 1,
                None => drop(self.runs.insert(kind.to_string(), 1)),
            }
            if wanted != given {
                *self.differences.entry(day.runs[run].engine.clone()).or_insert(0) += 1;
                if self.show > 0 {
                    self.show -= 1;
                    self.show(day, run);
                }
            }
        }
    }

    fn differ(&self, days: &[Day]) -> Vec<bool> {
        let admitted = |day: &Day| self.damaged || refusals(day).iter().all(|number| *number == 0);
        let tried: Vec<Day> = days.iter().filter(|day| admitted(day)).cloned().collect();
        let (wanted, given) = (expected(&self.reference, &tried), self.port.answers(&tried));
        let mut pairs = wanted.into_iter().zip(given);
        days.iter().map(|day| admitted(day) && pairs.next().is_some_and(|(wanted, given)| wanted != given)).collect()
    }

    /// Shrinks the day with that run alone and prints it.
    fn show(&self, day: &Day, run: usize) {
        let alone = Day { runs: vec![day.runs[run].clone()], ..day.clone() };
        let alone = if self.differ(std::slice::from_ref(&alone))[0] { alone } else { day.clone() };
        let small = shrink::shrink(&alone, &|days| self.differ(days));
        let days = std::slice::from_ref(&small);
        println!("difference, shrunk from {} locations to {}:", day.locations(), small.locations());
        print!("{}", show::shown(&small));
        println!("reference: {}", expected(&self.reference, days)[0].join("; "));
        println!("port:      {}\n", self.port.answers(days)[0].join("; "));
    }

    fn report(&self) {
        let runs: u64 = self.runs.values().sum();
        let differences: u64 = self.differences.values().sum();
        for (kind, count) in &self.runs {
            println!("{count:>12} {kind}");
        }
        for (engine, count) in &self.differences {
            println!("{count:>12} differences in {engine}");
        }
        println!("{runs} runs, {differences} differences");
        std::process::exit(i32::from(differences > 0));
    }
}
