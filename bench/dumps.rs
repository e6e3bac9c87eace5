//! Reads the dumps that callgrind wrote, one a side of a row.
use crate::rows::SIDES;
use std::collections::HashMap;
use std::fmt::Write;
use std::path::Path;

/// Instructions of one call of each side, and the functions that have most of the entry's, refusals aside.
#[derive(Clone, Default)]
pub struct Counts {
    pub rust: u64,
    pub refusals: u64,
    pub entry: u64,
    pub functions: Vec<Share>,
}

/// What a function has itself.
#[derive(Clone)]
pub struct Share {
    pub function: String,
    pub count: u64,
    /// Of the whole call.
    pub percent: f64,
}

impl Counts {
    /// The ratio of the entry less the refusals to the Rust.
    pub fn less(&self) -> f64 {
        (self.entry as f64 - self.refusals as f64) / self.rust as f64
    }

    /// The ratio of the whole entry to the Rust.
    pub fn whole(&self) -> f64 {
        self.entry as f64 / self.rust as f64
    }
}

/// One dump: the row and the side that it says it is of, and the instructions that each function has itself.
struct Dump {
    row: String,
    side: String,
    own: HashMap<String, u64>,
}

impl Dump {
    fn total(&self) -> u64 {
        self.own.values().sum()
    }

    /// The functions that have at least so many hundredths, most first.
    fn shares(&self, least: f64) -> Vec<Share> {
        let total = self.total() as f64;
        let share = |(function, count): (&String, &u64)| Share { function: function.clone(), count: *count, percent: 100.0 * *count as f64 / total };
        let mut shares: Vec<Share> = self.own.iter().map(share).filter(|share| share.percent >= least).collect();
        shares.sort_by(|a, b| b.count.cmp(&a.count));
        shares
    }
}

/// The counts by row.
pub fn totals(folder: &Path) -> HashMap<String, Counts> {
    let mut counts: HashMap<String, Counts> = HashMap::new();
    for mut dump in dumps(folder) {
        let total = dump.total();
        let of_row = counts.entry(dump.row.clone()).or_default();
        match SIDES.iter().position(|side| *side == dump.side) {
            Some(0) => of_row.rust = total,
            Some(1) => of_row.refusals = total,
            _ => {
                dump.own.retain(|function, _| !(function.contains("refusal") || function.starts_with("day_tests::")));
                (of_row.entry, of_row.functions) = (total, dump.shares(10.0));
            }
        }
    }
    counts
}

/// Each dump's functions that have a hundredth of its instructions or more.
pub fn by_function(folder: &Path) -> String {
    let mut text = String::new();
    for dump in dumps(folder) {
        writeln!(text, "{}, {}: {}", dump.row, dump.side, dump.total()).unwrap();
        for share in dump.shares(1.0) {
            writeln!(text, "{:>14}{:>6.1} %  {}", share.count, share.percent, share.function).unwrap();
        }
    }
    text
}

/// The dumps in the order in which they were written. The last file is of the program's end, and no row's.
fn dumps(folder: &Path) -> Vec<Dump> {
    let mut parts: Vec<(u32, String)> = Vec::new();
    for file in std::fs::read_dir(folder).expect("no folder of dumps").flatten() {
        let part = file.path().extension().and_then(|part| part.to_str()?.parse().ok());
        if let Some(part) = part {
            parts.push((part, std::fs::read_to_string(file.path()).expect("a dump can't be read")));
        }
    }
    parts.sort();
    parts.iter().filter_map(|(_, text)| read(text)).collect()
}

fn read(text: &str) -> Option<Dump> {
    let said = text.lines().find_map(|line| line.strip_prefix("desc: Trigger: Client Request: row "))?;
    let (row, side) = said.split_once(" side ")?;
    let mut names: HashMap<&str, &str> = HashMap::new();
    let mut own: HashMap<String, u64> = HashMap::new();
    let (mut function, mut of_callee) = ("", false);
    for line in text.lines() {
        if let Some((is_callee, number, name)) = function_line(line) {
            if !name.is_empty() {
                names.insert(number, name);
            }
            function = if is_callee { function } else { number };
        } else if line.starts_with("calls=") {
            of_callee = true;
        } else if let Some(count) = cost(line) {
            if !of_callee {
                *own.entry(names.get(function).unwrap_or(&function).to_string()).or_default() += count;
            }
            of_callee = false;
        }
    }
    Some(Dump { row: row.to_string(), side: side.to_string(), own })
}

/// `fn=(number) name` or `cfn=(number) name`, of a callee; the name only where the number is new.
fn function_line(line: &str) -> Option<(bool, &str, &str)> {
    let (key, rest) = line.split_once("fn=(")?;
    let (number, name) = rest.split_once(')')?;
    matches!(key, "" | "c").then_some((key == "c", number, name.trim()))
}

/// A line of a position and a count.
fn cost(line: &str) -> Option<u64> {
    let (position, count) = line.split_once(' ')?;
    position.starts_with(|first: char| first.is_ascii_digit() || "+-*".contains(first)).then(|| count.parse().ok())?
}
