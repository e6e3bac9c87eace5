//! What the port is to print of a day, damaged or not.
use crate::days::day::{Change, Day, Lent, Run, FLEET_COLUMNS};
use crate::days::refusal::{asked, refusal, Asked, NUMBERS};
use crate::programs::{Lines, Program};

/// Which refusal each run of the day is to get, 0 for none.
pub fn refusals(day: &Day) -> Vec<u8> {
    let lent = Lent::of(day);
    day.runs.iter().map(|run| refusal(&lent, &day.vans, asked(run))).collect()
}

/// What the port is to print: the refusals of document 01, and else the reference's lines.
pub fn expected(reference: &Program, days: &[Day]) -> Vec<Lines> {
    let numbers: Vec<Vec<u8>> = days.iter().map(refusals).collect();
    let mut tried: Vec<Day> = days.iter().zip(&numbers).map(|(day, numbers)| admitted(day, numbers, Part::First)).collect();
    let fleets = days.iter().zip(&numbers).filter(|(day, _)| has_parts(day));
    tried.extend(fleets.map(|(day, numbers)| admitted(day, numbers, Part::Fleet)));
    let mut answers = reference.answers(&tried).into_iter().map(Lines::into_iter);
    let mut first: Vec<_> = answers.by_ref().take(days.len()).collect();
    let lines = days.iter().zip(&numbers).zip(&mut first).map(|((day, numbers), first)| {
        let mut fleet = if has_parts(day) { answers.next().unwrap_or_default() } else { Vec::new().into_iter() };
        let line = |(run, number): (&Run, &u8)| match number {
            0 if NUMBERS.contains(&run.engine.as_str()) => format!("{} 0", run.engine),
            0 if part_of(day, run) == Part::First => first.next().unwrap_or_default(),
            0 => fleet.next().unwrap_or_default(),
            _ => format!("{} refused {number}", run.engine),
        };
        day.runs.iter().zip(numbers).map(line).collect()
    });
    lines.collect()
}

/// A day whose fleet is lent otherwise than it stands goes to the reference in two parts: the first van's runs as it stands,
/// and cross-depot's as it is lent.
#[derive(Clone, Copy, PartialEq)]
enum Part {
    First,
    Fleet,
}

fn has_parts(day: &Day) -> bool {
    day.changes.iter().any(|change| matches!(change, Change::Trim(column, _) if *column >= FLEET_COLUMNS))
}

fn part_of(day: &Day, run: &Run) -> Part {
    if has_parts(day) && matches!(asked(run), Asked::Fleet) { Part::Fleet } else { Part::First }
}

/// The part of the day with only the runs that the reference is asked for, as it is lent after its changes.
fn admitted(day: &Day, numbers: &[u8], part: Part) -> Day {
    let known = |run: &Run| !NUMBERS.contains(&run.engine.as_str());
    if day.changes.is_empty() && numbers.iter().all(|number| *number == 0) && day.runs.iter().all(known) {
        return day.clone();
    }
    let wanted = day.runs.iter().zip(numbers).filter(|(run, number)| **number == 0 && known(run) && part_of(day, run) == part);
    let runs: Vec<Run> = wanted.map(|(run, _)| run.clone()).collect();
    if runs.is_empty() {
        return Day::default();
    }
    let mut lent = Lent::of(day);
    if runs.iter().all(|run| matches!(asked(run), Asked::Nothing)) {
        // `table` reads no lists, so that they may be wrong.
        (lent.visits, lent.lengths) = (Vec::new(), Vec::new());
    }
    let fleet = runs.iter().any(|run| matches!(asked(run), Asked::Fleet));
    // Without cross-depot the other vans aren't read, so that they may be wrong.
    let vans = if fleet { lent.fleet.vans() } else { day.vans.iter().take(1).cloned().collect() };
    Day::lending(lent, vans, runs)
}
