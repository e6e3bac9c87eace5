//! Which days and runs are stored, with the reference's answers.
use crate::days::day::{Day, Run};
use crate::days::families::{day, engines_named, ACROSS, FAMILIES, FOR_FLEETS, WITHIN};
use crate::days::options::Options;
use crate::days::text::days_of_file;
use crate::encode;
use crate::programs::{Lines, Program};

/// Days tried of each family, for the checks and for the engines.
const TRIED: u64 = 60;
const TRIED_ENGINES: u64 = 40;
/// Of the days on which no engine makes a move, one in so many is stored.
const IDLE: usize = 8;
/// The limits asked for, and behind them one that no run uses up; with many locations that is a low one, since a move takes long there.
const LIMITS: [i64; 4] = [0, 1, 2, 3];
const LARGE: i64 = u32::MAX as i64;
const LARGE_FOR_MANY: i64 = 6;
const MANY: usize = 24;
/// The same for the engines over all lists, of which some runs never end.
const LARGE_ACROSS: i64 = 40;
/// The engines over all lists of one van; cross-depot has its own days.
const OF_ONE_VAN: usize = 3;

type Answered = (Day, Lines);

/// The kept days, whole.
pub fn kept(options: &Options, reference: &Program) -> Vec<Vec<u8>> {
    encoded(answered(kept_days(options), reference), usize::MAX)
}

/// Small days with runs that change nothing, families in turn.
pub fn checks(options: &Options, reference: &Program) -> Vec<Vec<u8>> {
    let (seed, largest) = (options.number("seed", 1), options.number("largest", 400) as usize);
    let names = options.text("runs", "feasible,eval,schedule,distance");
    let engines = engines_named(&names);
    in_turn(0..FOR_FLEETS, |family| {
        let days = (0..TRIED).map(|number| day(family, seed, number, true, &engines)).collect();
        encoded(answered(days, reference), largest)
    })
}

/// Days of any size with runs of the engines, families in turn.
pub fn engines(options: &Options, reference: &Program) -> Vec<Vec<u8>> {
    let (seed, largest) = (options.number("seed", 1), options.number("engines-largest", 7_000) as usize);
    in_turn(0..FOR_FLEETS, |family| {
        let days = (0..TRIED_ENGINES).map(|number| asking_engines(day(family, seed, number, false, &[]))).collect();
        encoded(moving(answered(days, reference)), largest)
    })
}

/// Days with runs of cross-depot, the families made for it in turn.
pub fn fleets(options: &Options, reference: &Program) -> Vec<Vec<u8>> {
    let (seed, largest) = (options.number("seed", 1), options.number("fleets-largest", 3_000) as usize);
    in_turn(FOR_FLEETS..FAMILIES.len(), |family| {
        let asking = |number| {
            let mut day = day(family, seed, number, false, &[]);
            let large = if day.locations() > MANY { LARGE_FOR_MANY } else { LARGE_ACROSS };
            ask(&mut day, "cross", 0, large);
            day
        };
        encoded(moving(answered((0..TRIED).map(asking).collect(), reference)), largest)
    })
}

/// The days on which something moves, and some of the others.
fn moving(days: Vec<Answered>) -> Vec<Answered> {
    let told = days.into_iter().enumerate();
    let moving = told.filter(|(number, (_, lines))| number % IDLE == 0 || lines.iter().any(|line| moves(line) > 0));
    moving.map(|(_, day)| without_repeats(day)).collect()
}

/// The first day of each family, then the second of each, and so on.
fn in_turn(families: std::ops::Range<usize>, of_family: impl Fn(usize) -> Vec<Vec<u8>>) -> Vec<Vec<u8>> {
    let families: Vec<Vec<Vec<u8>>> = families.map(of_family).collect();
    let turns = families.iter().map(Vec::len).max().unwrap_or(0);
    (0..turns).flat_map(|turn| families.iter().filter_map(move |days| days.get(turn).cloned())).collect()
}

fn answered(days: Vec<Day>, reference: &Program) -> Vec<Answered> {
    let answers = reference.answers(&days);
    days.into_iter().zip(answers).collect()
}

/// The bytes of the days that can be stored and aren't too large.
fn encoded(days: Vec<Answered>, largest: usize) -> Vec<Vec<u8>> {
    let bytes = days.iter().filter_map(|(day, lines)| encode::day(day, lines));
    bytes.filter(|bytes| bytes.len() <= largest).collect()
}

fn kept_days(options: &Options) -> Vec<Day> {
    let file = options.text("kept", "");
    if file.is_empty() {
        return Vec::new();
    }
    let mut days = days_of_file(&file);
    for day in &mut days {
        day.runs.retain(|run| encode::tag(&run.engine).is_some());
    }
    days
}

/// The day with every engine, every list and every limit asked for.
fn asking_engines(mut day: Day) -> Day {
    let many = day.locations() > MANY;
    for engine in WITHIN {
        for list in 0..day.lists.len() as u64 {
            ask(&mut day, engine, list, if many { LARGE_FOR_MANY } else { LARGE });
        }
    }
    for engine in &ACROSS[..OF_ONE_VAN] {
        ask(&mut day, engine, 0, if many { LARGE_FOR_MANY } else { LARGE_ACROSS });
    }
    day
}

/// Asks for one engine with every limit, the largest last.
fn ask(day: &mut Day, engine: &str, list: u64, large: i64) {
    let limits = LIMITS.into_iter().chain([large]);
    day.runs.extend(limits.map(|limit| Run { engine: engine.to_string(), limit, list }));
}

/// The moves that a line of an engine tells.
fn moves(line: &str) -> i64 {
    line.split(' ').nth(2).and_then(|word| word.parse().ok()).unwrap_or(0)
}

/// The day without the runs whose limit is above the moves that the largest limit leads to: their answers are that run's.
fn without_repeats((mut day, lines): Answered) -> Answered {
    let asked = std::mem::take(&mut day.runs);
    let mut kept = Vec::new();
    for (runs, lines) in asked.chunks(LIMITS.len() + 1).zip(lines.chunks(LIMITS.len() + 1)) {
        let most = moves(&lines[LIMITS.len()]);
        for (place, (run, line)) in runs.iter().zip(lines).enumerate() {
            if place == LIMITS.len() || run.limit <= most {
                day.runs.push(run.clone());
                kept.push(line.clone());
            }
        }
    }
    (day, kept)
}
