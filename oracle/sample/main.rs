//! sample: a file of days with the reference's answers, for a program that has no Rust at hand (README.md has the format).
//!   sample write FILE [--kept DAYS] [--seed N] [--bytes N] [--largest N] [--runs NAME,..] [--engines-bytes N]
//!                     [--engines-largest N] [--fleets-bytes N] [--fleets-largest N] [--reference PROGRAM]
//!                                               the days of the text file DAYS first, then generated ones: small days
//!                                               for the checks, days for the engines, days for cross-depot
//!   sample check FILE [--reference PROGRAM]     reads the file back and holds it to the reference
//!   sample count FILE                           prints how many runs it has of each kind and answer
//!   sample text FILE                            prints it in the text format
mod choose;
#[path = "../days/mod.rs"]
mod days;
mod decode;
mod encode;
#[path = "../compare/programs.rs"]
mod programs;
use days::day::Day;
use days::options::{fail, Options};
use days::text::put_day;
use programs::{Lines, Program};
use std::collections::BTreeMap;

const NAMES: [&str; 10] = [
    "seed", "bytes", "largest", "runs", "engines-bytes", "engines-largest", "fleets-bytes", "fleets-largest", "reference", "kept",
];

fn main() {
    let options = Options::read(&NAMES);
    let beside = std::env::current_exe().unwrap().with_file_name("reference").to_string_lossy().into_owned();
    let reference = Program::new(options.text("reference", &beside));
    let words: Vec<&str> = options.words.iter().map(String::as_str).collect();
    match words[..] {
        ["write", file] => write(file, &options, &reference),
        ["check", file] => check(file, &reference),
        ["count", file] => count(file),
        ["text", file] => text(file),
        _ => fail("usage: sample write|check|count|text FILE; the head comment of sample/main.rs lists the options"),
    }
}

/// The kept days, then the days for the checks, for the engines and for cross-depot, of each as many as there is room for.
fn write(file: &str, options: &Options, reference: &Program) {
    let mut out = vec![0, 0];
    let room = options.number("bytes", 60_000) as usize;
    let mut count = 0;
    count += put(&mut out, choose::kept(options, reference), room);
    count += put(&mut out, choose::checks(options, reference), room);
    let room = out.len() + options.number("engines-bytes", 350_000) as usize;
    count += put(&mut out, choose::engines(options, reference), room);
    let room = out.len() + options.number("fleets-bytes", 80_000) as usize;
    count += put(&mut out, choose::fleets(options, reference), room);
    out[..2].copy_from_slice(&count.to_le_bytes());
    if std::fs::write(file, &out).is_err() {
        fail(&format!("can't write {file}"));
    }
    println!("{count} days, {} bytes", out.len());
}

/// Adds the days for which there is room, and says how many these are.
fn put(out: &mut Vec<u8>, days: Vec<Vec<u8>>, room: usize) -> u16 {
    let mut count = 0;
    for bytes in days {
        if out.len() + bytes.len() <= room {
            out.extend(bytes);
            count += 1;
        }
    }
    count
}

fn read(file: &str) -> Vec<(Day, Lines)> {
    let bytes = std::fs::read(file).unwrap_or_else(|error| fail(&format!("{file}: {error}")));
    decode::days(&bytes).unwrap_or_else(|| fail(&format!("{file} isn't in the format")))
}

fn check(file: &str, reference: &Program) {
    let (days, stored): (Vec<Day>, Vec<Lines>) = read(file).into_iter().unzip();
    let answers = reference.answers(&days);
    let runs: usize = stored.iter().map(Vec::len).sum();
    let differences = stored.iter().flatten().zip(answers.iter().flatten()).filter(|(stored, answer)| stored != answer).count();
    println!("{} days, {runs} runs, {differences} differences", days.len());
    std::process::exit(i32::from(differences > 0));
}

/// Runs by kind and, for an engine, by soft windows or none in the day, the end word and the moves, 4 or more as one.
fn count(file: &str) {
    let mut counts = BTreeMap::new();
    for (day, lines) in read(file) {
        for line in &lines {
            *counts.entry(kind(&day, line)).or_insert(0) += 1;
        }
    }
    for (kind, count) in counts {
        println!("{count:6} {kind}");
    }
}

fn kind(day: &Day, line: &str) -> String {
    let words: Vec<&str> = line.split(' ').collect();
    match words[..] {
        [engine, end @ ("settled" | "stopped"), moves, ..] => {
            let soft = day.flags.iter().any(|flags| flags & 6 == 6);
            let moves = if moves.len() > 1 || moves > "3" { "4 or more" } else { moves };
            format!("{engine} {} {end} {moves}", if soft { "soft" } else { "hard" })
        }
        [engine, ..] => engine.to_string(),
        [] => String::new(),
    }
}

fn text(file: &str) {
    let mut out = String::new();
    for (day, _) in read(file) {
        put_day(&mut out, &day);
    }
    print!("{out}");
}
