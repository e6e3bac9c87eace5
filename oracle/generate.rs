//! generate: days in the text format on standard output.
//!   generate [--families all|NAME,..] [--seed N] [--from N] [--count N] [--runs checks|engines|all|NAME,..] [--small 1]
//!   generate --refusals EXPECTED [--seed N] [--from N] [--count N] [--runs ..]
//! The second form writes damaged days, and to the file EXPECTED one line a run: `ENGINE refused N`, or `ENGINE` alone
//! where the day is admitted after all.
mod days;
use days::options::{fail, Options};
use days::{damage, day::Lent, families, refusal, text};
use std::io::Write;

const NAMES: [&str; 7] = ["families", "seed", "from", "count", "runs", "small", "refusals"];
const BATCH: u64 = 256;

fn main() {
    let options = Options::read(&NAMES);
    if !options.words.is_empty() {
        fail("generate takes options only; its head comment lists them");
    }
    let (from, count) = (options.number("from", 0), options.number("count", 32));
    let mut at = from;
    let mut expected = String::new();
    while at < from + count {
        let to = (at + BATCH).min(from + count);
        write_batch(&options, at, to, &mut expected);
        at = to;
    }
    let file = options.text("refusals", "");
    if !file.is_empty() && std::fs::write(&file, expected).is_err() {
        fail(&format!("can't write {file}"));
    }
}

fn write_batch(options: &Options, from: u64, to: u64, expected: &mut String) {
    let (seed, names) = (options.number("seed", 1), options.text("runs", "checks"));
    let engines = families::engines_named(&names);
    let days = if options.text("refusals", "").is_empty() {
        let chosen = families::families_named(&options.text("families", "all"));
        families::days(&chosen, seed, from, to, options.number("small", 0) != 0, &engines)
    } else {
        (from..to).map(|number| damage::day(seed, number, &engines)).collect()
    };
    let mut out = String::new();
    for day in &days {
        text::put_day(&mut out, day);
        let lent = Lent::of(day);
        for run in &day.runs {
            match refusal::refusal(&lent, &day.vans, refusal::asked(run)) {
                0 => expected.push_str(&format!("{}\n", run.engine)),
                number => expected.push_str(&format!("{} refused {number}\n", run.engine)),
            }
        }
    }
    if std::io::stdout().write_all(out.as_bytes()).is_err() {
        std::process::exit(1);
    }
}
