//! demand3: holds the port's answers to demand 3 on small days, by brute force: the permitted moves are listed from
//! document 01, and none of the port's definitions, nor the Rust's search, is used.
//!   demand3 [--seed N] [--from N] [--count N] [--batch N] [--show N] [--engines all|NAME,..] [--port PROGRAM]
//!           [--corrupt all|KIND,..] [DAYS ..]
//! The days are made, or read from the files named. Runs are counted by engine and end word; of the first N failures (--show,
//! 3) the day is printed, with that run. With --corrupt each answer is made wrong in the ways named (corrupt.rs) and the wrong
//! copies are checked too, counted by kind. The exit status is 1 where there was a failure, of a wrong copy too.
mod answer;
mod check;
mod corrupt;
#[path = "../days/mod.rs"]
mod days;
mod instance;
mod moves;
#[path = "../compare/programs.rs"]
mod programs;
#[path = "../compare/show.rs"]
mod show;
mod small;
use answer::{Answer, End};
use check::Started;
use days::day::{Day, Run};
use days::options::{fail, Options};
use days::text::days_of_file;
use instance::{Instance, Lists};
use moves::{Engine, Reached, ENGINES};
use programs::{Lines, Program};
use std::collections::BTreeMap;

const NAMES: [&str; 8] = ["seed", "from", "count", "batch", "show", "engines", "port", "corrupt"];

/// Counts of one kind of wrong copy.
#[derive(Default)]
struct Wrong {
    made: u64,
    /// How many were found, by what was found wrong.
    found: BTreeMap<&'static str, u64>,
}

struct Trial {
    port: Program,
    /// How many failures are still to be shown.
    show: u64,
    kinds: Vec<String>,
    days: u64,
    /// Runs by engine and end.
    runs: BTreeMap<(String, &'static str), u64>,
    /// Failures by engine and what is wrong.
    failures: BTreeMap<(String, &'static str), u64>,
    /// Wrong copies by kind and engine.
    wrong: BTreeMap<(String, String), Wrong>,
}

fn main() {
    let options = Options::read(&NAMES);
    let beside = |name: &str| std::env::current_exe().map_or(name.into(), |own| own.with_file_name(name).to_string_lossy().into_owned());
    let mut trial = Trial {
        port: Program::new(options.text("port", &beside("port"))),
        show: options.number("show", 3),
        kinds: kinds_named(&options.text("corrupt", "")),
        days: 0,
        runs: BTreeMap::new(),
        failures: BTreeMap::new(),
        wrong: BTreeMap::new(),
    };
    if options.words.is_empty() {
        made(&options, &mut trial);
    }
    for file in &options.words {
        trial.batch(&days_of_file(file));
    }
    trial.report();
}

fn kinds_named(names: &str) -> Vec<String> {
    let kinds: Vec<String> = match names {
        "" => Vec::new(),
        "all" => corrupt::KINDS.iter().map(|kind| kind.to_string()).collect(),
        _ => names.split(',').map(str::to_string).collect(),
    };
    if let Some(kind) = kinds.iter().find(|kind| !corrupt::KINDS.contains(&kind.as_str())) {
        fail(&format!("no kind {kind}; there are {}", corrupt::KINDS.join(", ")));
    }
    kinds
}

fn engines_named(names: &str) -> Vec<(&str, Engine)> {
    let engine = |name| Engine::named(name).unwrap_or_else(|| fail(&format!("no engine {name}")));
    match names {
        "all" => ENGINES.to_vec(),
        _ => names.split(',').map(|name| (name, engine(name))).collect(),
    }
}

fn made(options: &Options, trial: &mut Trial) {
    let (seed, batch) = (options.number("seed", 1), options.number("batch", 5000).max(1));
    let names = options.text("engines", "all");
    let engines = engines_named(&names);
    let day = |number: u64| small::day(seed, number, &engines).unwrap_or_else(|what| fail(&format!("day {number}: {what}")));
    let mut at = options.number("from", 0);
    let end = at.saturating_add(options.number("count", 10_000));
    while at < end {
        let to = at.saturating_add(batch).min(end);
        trial.batch(&(at..to).map(day).collect::<Vec<Day>>());
        at = to;
    }
}

/// What a run of the engine starts from: within a list, that list alone.
fn lent(engine: Engine, day: &Day, run: &Run) -> Lists {
    match engine.within_a_list() {
        true => day.lists.iter().skip(run.list as usize).take(1).cloned().collect(),
        false => day.lists.clone(),
    }
}

impl Trial {
    fn batch(&mut self, days: &[Day]) {
        let answers = self.port.answers(days);
        for (day, lines) in days.iter().zip(&answers) {
            self.day(day, lines);
        }
        self.days += days.len() as u64;
    }

    fn day(&mut self, day: &Day, lines: &Lines) {
        let instance = Instance::of(day).unwrap_or_else(|what| fail(&format!("a day outside demand 3: {what}")));
        let mut reached: BTreeMap<(Engine, u64), Reached> = BTreeMap::new();
        for (run, line) in day.runs.iter().zip(lines) {
            let Some(engine) = Engine::named(&run.engine) else {
                self.count(run, "not an engine of demand 3");
                continue;
            };
            let lent = lent(engine, day, run);
            let limit = u64::from(u32::try_from(run.limit).unwrap_or(u32::MAX));
            let started = Started { instance: &instance, engine, limit, lent: &lent };
            let reached = reached.entry((engine, run.list)).or_insert_with(|| BTreeMap::from([(0, vec![lent.clone()])]));
            self.run(&started, run, line, reached);
        }
    }

    fn run(&mut self, started: &Started, run: &Run, line: &str, reached: &mut Reached) {
        if line.ends_with(" unknown") {
            return self.count(run, "unknown");
        }
        let Some(answer) = answer::read(started.engine, line) else {
            self.count(run, "without an answer");
            return self.failure(started.instance.day, run, line, "no answer of the format");
        };
        self.count(run, end_of(&answer));
        match started.checked(&answer, reached) {
            Ok(ends) => drop(reached.insert(answer.moves, ends)),
            Err(what) => self.failure(started.instance.day, run, line, what),
        }
        for kind in self.kinds.clone() {
            if let Some(wrong) = corrupt::wrong(&kind, started, &answer) {
                self.wrong_copy(kind, run, started.checked(&wrong, reached).err());
            }
        }
    }

    fn count(&mut self, run: &Run, end: &'static str) {
        *self.runs.entry((run.engine.clone(), end)).or_insert(0) += 1;
    }

    fn wrong_copy(&mut self, kind: String, run: &Run, found: Option<&'static str>) {
        let counts = self.wrong.entry((kind, run.engine.clone())).or_default();
        counts.made += 1;
        if let Some(what) = found {
            *counts.found.entry(what).or_insert(0) += 1;
        }
    }

    fn failure(&mut self, day: &Day, run: &Run, line: &str, what: &'static str) {
        *self.failures.entry((run.engine.clone(), what)).or_insert(0) += 1;
        if self.show > 0 {
            self.show -= 1;
            let alone = Day { runs: vec![run.clone()], ..day.clone() };
            println!("failure: {what}\n{}port: {line}\n", show::shown(&alone));
        }
    }

    fn report(&self) {
        for ((engine, end), count) in &self.runs {
            println!("{count:>12} {engine} {end}");
        }
        for ((kind, engine), counts) in &self.wrong {
            let found: u64 = counts.found.values().sum();
            println!("{:>12} {kind} of {engine}, {found} found, {} meet demand 3 as well", counts.made, counts.made - found);
            for (what, count) in &counts.found {
                println!("{count:>24} {what}");
            }
        }
        for ((engine, what), count) in &self.failures {
            println!("{count:>12} failures of {engine}: {what}");
        }
        let (runs, failures): (u64, u64) = (self.runs.values().sum(), self.failures.values().sum());
        let found: u64 = self.wrong.values().flat_map(|counts| counts.found.values()).sum();
        println!("{} days, {runs} runs, {failures} failures", self.days);
        std::process::exit(i32::from(failures + found > 0));
    }
}

fn end_of(answer: &Answer) -> &'static str {
    match (answer.end, answer.moves) {
        (End::Settled, 0) => "settled, no move",
        (End::Settled, 1) => "settled, 1 move",
        (End::Settled, 2 | 3) => "settled, 2 or 3 moves",
        (End::Settled, _) => "settled, 4 moves or more",
        (End::Stopped, 0) => "stopped, no move",
        (End::Stopped, _) => "stopped, 1 move or more",
    }
}
