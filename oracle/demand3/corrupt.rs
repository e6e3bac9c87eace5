//! Wrong copies of an answer, to see that they are found. Each is made of a right answer where that can be; a few of those
//! made are right after all, as where one move fewer also leads there.
use crate::answer::{Answer, End};
use crate::check::{dropped, Started};
use crate::instance::Lists;
use crate::moves::{candidates, permitted, settled, Engine, Move};

pub const KINDS: [&str; 19] = [
    "fewer-moves", "more-moves", "no-moves", "settled-early", "untouched-settled", "stopped-early", "stopped-in-vain",
    "over-the-limit", "office-dropped", "office-twice", "office-strange", "over-capacity", "other-order", "failing-list",
    "other-engine", "distance-off", "lists-swapped", "empty-kept", "count-off",
];

/// The wrong copy of that kind, where this answer can be made one.
pub fn wrong(kind: &str, run: &Started, answer: &Answer) -> Option<Answer> {
    let made = match kind {
        "settled-early" | "stopped-early" | "stopped-in-vain" | "over-the-limit" => wrong_end(kind, run, answer),
        "fewer-moves" | "more-moves" | "no-moves" => wrong_moves(kind, answer),
        "untouched-settled" => (answer.moves > 0).then(|| answering(run, End::Settled, 0, run.lent)),
        "office-dropped" | "office-twice" | "office-strange" => wrong_offices(kind, run, answer),
        "failing-list" | "other-engine" => wrong_move(kind, run),
        "over-capacity" => over_capacity(run, answer),
        _ => wrong_form(kind, run, answer),
    };
    made.filter(|made| made != answer)
}

/// An answer with the distance and the count that its lists have.
fn answering(run: &Started, end: End, moves: u64, lists: &Lists) -> Answer {
    let lists = dropped(run.engine, lists);
    let known = |list: &Vec<u16>| list.iter().all(|visit| usize::from(*visit) < run.instance.day.locations());
    let far = |list: &Vec<u16>| if known(list) { run.instance.distance(list) } else { 0 };
    let distance: u64 = lists.iter().map(far).sum();
    Answer { end, moves, distance: run.engine.within_a_list().then_some(distance as f64), count: lists.len(), lists }
}

fn wrong_end(kind: &str, run: &Started, answer: &Answer) -> Option<Answer> {
    let (end, moves) = match (kind, answer.end) {
        ("settled-early", End::Stopped) => (End::Settled, answer.moves),
        ("stopped-early", End::Settled) if answer.moves < run.limit => (End::Stopped, answer.moves),
        ("stopped-in-vain", End::Settled) if answer.moves == run.limit => (End::Stopped, answer.moves),
        ("over-the-limit", End::Stopped) => (End::Stopped, answer.moves + 1),
        _ => return None,
    };
    Some(Answer { end, moves, ..answer.clone() })
}

fn wrong_moves(kind: &str, answer: &Answer) -> Option<Answer> {
    let moves = match kind {
        "fewer-moves" => answer.moves.checked_sub(1)?,
        "more-moves" => answer.moves + 1,
        _ => 0,
    };
    Some(Answer { moves, ..answer.clone() })
}

fn wrong_offices(kind: &str, run: &Started, answer: &Answer) -> Option<Answer> {
    let mut lists = answer.lists.clone();
    let visits = lists.concat();
    let list = lists.iter_mut().find(|list| !list.is_empty())?;
    match kind {
        "office-dropped" => drop(list.pop()),
        "office-twice" => list[0] = *visits.last()?,
        _ => {
            let strange = |place: &u16| !visits.contains(place);
            list[0] = (0..=run.instance.day.locations() as u16).rev().find(strange)?;
        }
    }
    Some(answering(run, answer.end, answer.moves, &lists))
}

/// One visit more in a list than its capacity allows, where every list was within it at the start.
fn over_capacity(run: &Started, answer: &Answer) -> Option<Answer> {
    if run.engine.within_a_list() || !run.lent.iter().all(|list| run.instance.within_capacity(list)) {
        return None;
    }
    let over = |step: &Move| step.tested.iter().any(|list| !run.instance.within_capacity(&step.after[*list]));
    let step = candidates(Engine::Relocate, &answer.lists).into_iter().find(over)?;
    Some(answering(run, answer.end, answer.moves, &step.after))
}

/// A first move that lowers the sum and that document 01 doesn't permit: the list fails or is over capacity, or the move is
/// another engine's. The end word is right for the lists it leaves.
fn wrong_move(kind: &str, run: &Started) -> Option<Answer> {
    let other = match run.engine {
        Engine::TwoOpt => Engine::OrOpt,
        Engine::OrOpt => Engine::ThreeOpt,
        Engine::ThreeOpt => Engine::TwoOpt,
        Engine::Exchange => Engine::Relocate,
        Engine::Relocate | Engine::RelocateWithoutPruning => Engine::Exchange,
    };
    let engine = if kind == "other-engine" { other } else { run.engine };
    let sum = run.instance.sum(run.lent);
    let suits = |step: &Move| {
        run.instance.sum(&step.after) < sum && permitted(run.instance, engine, step) == (kind == "other-engine")
    };
    let after = candidates(engine, run.lent).into_iter().find(suits)?.after;
    let end = if settled(run.instance, run.engine, &after) { End::Settled } else { End::Stopped };
    let suitable = run.limit == 1 || (run.limit > 1 && end == End::Settled);
    suitable.then(|| answering(run, end, 1, &after))
}

fn wrong_form(kind: &str, run: &Started, answer: &Answer) -> Option<Answer> {
    let mut made = answer.clone();
    match kind {
        "other-order" => {
            made.lists.iter_mut().find(|list| list.len() > 1)?.rotate_left(1);
            made = answering(run, answer.end, answer.moves, &made.lists);
        }
        "distance-off" => made.distance = Some(answer.distance? + 1.0),
        "lists-swapped" if made.lists.len() > 1 => made.lists.swap(0, 1),
        "empty-kept" if !run.engine.within_a_list() => {
            made.lists.push(Vec::new());
            made.count += 1;
        }
        "count-off" if !run.engine.within_a_list() => made.count += 1,
        _ => return None,
    }
    Some(made)
}
