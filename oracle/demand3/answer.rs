//! A line of the port, read.
use crate::instance::Lists;
use crate::moves::Engine;

#[derive(Clone, Copy, Debug, PartialEq)]
pub enum End {
    Settled,
    Stopped,
}

#[derive(Clone, Debug, PartialEq)]
pub struct Answer {
    pub end: End,
    pub moves: u64,
    /// Within a list only.
    pub distance: Option<f64>,
    pub lists: Lists,
    /// How many lists remain, as said.
    pub count: usize,
}

/// `[a,b|c]`, of so many lists: none at all and one that is empty look the same.
fn lists(word: &str, count: usize) -> Option<Lists> {
    let inside = word.strip_prefix('[')?.strip_suffix(']')?;
    if inside.is_empty() && count == 0 {
        return Some(Vec::new());
    }
    let visits = |list: &str| match list {
        "" => Some(Vec::new()),
        _ => list.split(',').map(|visit| visit.parse().ok()).collect(),
    };
    inside.split('|').map(visits).collect()
}

/// `ENGINE END MOVES DISTANCE [a,b,c]` within a list, `ENGINE END MOVES [a,b|c] COUNT` across lists.
pub fn read(engine: Engine, line: &str) -> Option<Answer> {
    let words: Vec<&str> = line.split(' ').collect();
    let [_, end, moves, fourth, fifth] = words[..] else {
        return None;
    };
    let end = match end {
        "settled" => End::Settled,
        "stopped" => End::Stopped,
        _ => return None,
    };
    let moves = moves.parse().ok()?;
    if engine.within_a_list() {
        let distance = u64::from_str_radix(fourth, 16).ok().map(f64::from_bits);
        return Some(Answer { end, moves, distance: Some(distance?), lists: lists(fifth, 1)?, count: 1 });
    }
    let count = fifth.parse().ok()?;
    Some(Answer { end, moves, distance: None, lists: lists(fourth, count)?, count })
}
