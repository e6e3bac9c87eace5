//! The tables of docs/BENCHMARKS.md, from what was measured.
use crate::dumps::{Counts, Share};
use crate::rows::{Figures, Row};
use std::collections::BTreeSet;
use std::fmt::Write;

/// A ratio above this, in hundredths, is to be mended.
const GOAL: f64 = 80.0;

const THE_CLOCK: &str = "\
'The clock alone' is the time of a list's additions of travel, waiting and service in the Rust's order, with nothing looked up, each call waiting for the one
before it (bench/chain.rs), to that of the Rust's whole check. Near 1, the Rust's check takes as long as its additions one after another, and a port that
makes the same ones, as it must for the same bits, is shorter only by what a processor runs of two calls at once. 'The call' is this
program's own: an entry takes each column for itself, where the Rust takes five references, and the export (planner_..) hands them on.

";

pub fn tables(figures: &[Figures]) -> String {
    let mut text = String::from("## Ratios of time\n\n");
    text.push_str("The entry less its refusals to the Rust, and in brackets the whole entry to the Rust; by the number of offices.\n\n");
    ratios(&mut text, figures);
    text.push_str("\n## Above the goal\n\n");
    text.push_str(THE_CLOCK);
    above(&mut text, figures);
    text.push_str("\n## Times and instructions\n\n");
    text.push_str("Of one call. 'Less' is the ratio of the entry less its refusals to the Rust, 'whole' that of the whole entry.\n\n");
    every(&mut text, figures);
    text
}

/// A line for each entry, kind and number of lists, a column for each number of offices.
fn ratios(text: &mut String, figures: &[Figures]) {
    let columns: BTreeSet<usize> = figures.iter().map(|one| one.row.offices).collect();
    text.push_str("| entry | day | lists |");
    for offices in &columns {
        write!(text, " {offices} |").unwrap();
    }
    writeln!(text, "\n|---|---|--:|{}", "--:|".repeat(columns.len())).unwrap();
    let mut lines: Vec<(&str, &str, usize)> = Vec::new();
    for Figures { row, .. } in figures {
        if !lines.contains(&line_of(row)) {
            lines.push(line_of(row));
        }
    }
    for line in lines {
        write!(text, "| {} | {} | {} |", line.0, line.1, line.2).unwrap();
        for offices in &columns {
            let cell = figures.iter().find(|one| line_of(&one.row) == line && one.row.offices == *offices);
            text.push_str(&cell.map_or(" |".to_string(), |one| format!(" {:.2} ({:.2}) |", one.times.less, one.times.whole)));
        }
        text.push('\n');
    }
}

fn line_of(row: &Row) -> (&str, &str, usize) {
    (row.entry, row.kind, row.lists)
}

/// The rows above the goal, the worst first, with the ratio of instructions beside that of time, and where the entry has them.
fn above(text: &mut String, figures: &[Figures]) {
    let mut rows: Vec<&Figures> = figures.iter().filter(|one| (100.0 * one.times.less).round() > GOAL).collect();
    rows.sort_by(|a, b| b.times.less.total_cmp(&a.times.less));
    writeln!(text, "{} of {} rows have a ratio less refusals above {}:\n", rows.len(), figures.len(), GOAL / 100.0).unwrap();
    text.push_str("| entry | day | offices | lists | time | the clock alone | instructions | where the entry has them, refusals aside |\n");
    text.push_str("|---|---|--:|--:|--:|--:|--:|---|\n");
    for Figures { row, times, counts } in rows {
        let chain = times.chain.map_or(String::new(), |chain| format!("{chain:.2}"));
        write!(text, "| {} | {} | {} | {} | {:.2} | {chain} |", row.entry, row.kind, row.offices, row.lists, times.less).unwrap();
        let counted = counts.as_ref().map(|counts| format!(" {:.2} | {} |", counts.less(), functions(counts)));
        writeln!(text, "{}", counted.unwrap_or(" | |".to_string())).unwrap();
    }
}

/// Functions with their shares. The program's own is the call: the arguments that it puts down, and the lists that it lays out.
fn functions(counts: &Counts) -> String {
    let name = |share: &Share| if share.function.starts_with("bench::") { "the call".to_string() } else { share.function.clone() };
    let share = |share: &Share| format!("{} {:.0} %", name(share), share.percent);
    counts.functions.iter().map(share).collect::<Vec<_>>().join(", ")
}

fn every(text: &mut String, figures: &[Figures]) {
    text.push_str("| entry | day | offices | lists | moves | Rust, ns | refusals | entry | less | whole |");
    text.push_str(" Rust, instructions | refusals | entry | less | whole |\n|---|---|--:|--:|--:|--:|--:|--:|--:|--:|--:|--:|--:|--:|--:|\n");
    for Figures { row, times, counts } in figures {
        let moves = match row.moves {
            None => String::new(),
            Some((moves, true)) => moves.to_string(),
            Some((moves, false)) => format!("{moves}, stopped"),
        };
        write!(text, "| {} | {} | {} | {} | {moves} |", row.entry, row.kind, row.offices, row.lists).unwrap();
        write!(text, " {} | {} | {} |", whole(times.rust), whole(times.refusals), whole(times.entry)).unwrap();
        write!(text, " {:.2} | {:.2} |", times.less, times.whole).unwrap();
        match counts {
            None => text.push_str(" | | | | |"),
            Some(counts) => {
                let [rust, refusals, entry] = [counts.rust, counts.refusals, counts.entry].map(|count| whole(count as f64));
                write!(text, " {rust} | {refusals} | {entry} | {:.2} | {:.2} |", counts.less(), counts.whole()).unwrap();
            }
        }
        text.push('\n');
    }
}

/// A whole number with a comma before every three digits.
fn whole(number: f64) -> String {
    let digits = format!("{number:.0}");
    let mut text = String::new();
    for (place, digit) in digits.chars().enumerate() {
        if place > 0 && (digits.len() - place) % 3 == 0 {
            text.push(',');
        }
        text.push(digit);
    }
    text
}
