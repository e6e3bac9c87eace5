//! Runs a program over days, in one process for many days.
use crate::days::day::Day;
use crate::days::text::put_day;
use std::io::{Read, Write};
use std::process::{Command, Stdio};
use std::sync::mpsc::channel;
use std::time::Duration;

/// How long a process may take for a batch.
const PATIENCE: Duration = Duration::from_secs(120);
/// The same for one day.
const DAY_PATIENCE: Duration = Duration::from_secs(10);
pub const NO_ANSWER: &str = "no answer";

/// The lines of a day's runs.
pub type Lines = Vec<String>;

pub struct Program {
    path: String,
}

impl Program {
    pub fn new(path: String) -> Program {
        Program { path }
    }

    /// What the process prints on that input; it is ended when it takes too long.
    fn output(&self, text: String, patience: Duration) -> String {
        let started = Command::new(&self.path).stdin(Stdio::piped()).stdout(Stdio::piped()).stderr(Stdio::null()).spawn();
        let mut child = started.unwrap_or_else(|error| crate::days::options::fail(&format!("{}: {error}", self.path)));
        let (mut input, mut output) = (child.stdin.take().unwrap(), child.stdout.take().unwrap());
        let writer = std::thread::spawn(move || drop(input.write_all(text.as_bytes())));
        let (sender, receiver) = channel();
        let reader = std::thread::spawn(move || {
            let mut bytes = Vec::new();
            drop(output.read_to_end(&mut bytes));
            let _ = sender.send(());
            bytes
        });
        if receiver.recv_timeout(patience).is_err() {
            drop(child.kill());
        }
        drop(child.wait());
        drop(writer.join());
        String::from_utf8_lossy(&reader.join().unwrap()).into_owned()
    }

    /// Each day's lines. Where a line is wanting, or one too many, each day is run by itself.
    pub fn answers(&self, days: &[Day]) -> Vec<Lines> {
        let mut text = String::new();
        for day in days {
            put_day(&mut text, day);
        }
        let output = self.output(text, PATIENCE);
        let runs: usize = days.iter().map(|day| day.runs.len()).sum();
        if output.lines().count() != runs || !(output.is_empty() || output.ends_with('\n')) {
            return days.iter().map(|day| self.alone(day)).collect();
        }
        let mut lines = output.lines().map(str::to_string);
        days.iter().map(|day| lines.by_ref().take(day.runs.len()).collect()).collect()
    }

    fn alone(&self, day: &Day) -> Lines {
        let mut text = String::new();
        put_day(&mut text, day);
        let output = self.output(text, DAY_PATIENCE);
        let mut lines: Lines = output.lines().map(str::to_string).collect();
        if lines.len() > day.runs.len() {
            let more = lines.split_off(day.runs.len()).join("; ");
            if let Some(last) = lines.last_mut() {
                last.push_str(&format!("; then {more}"));
            }
        }
        lines.resize(day.runs.len(), NO_ANSWER.to_string());
        lines
    }
}
