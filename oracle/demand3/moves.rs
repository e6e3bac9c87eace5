//! The permitted moves of document 01, listed one by one from its sentences, and chains of them.
use crate::instance::{Instance, Lists};
use std::collections::BTreeMap;

#[derive(Clone, Copy, Debug, PartialEq, Eq, PartialOrd, Ord)]
pub enum Engine {
    TwoOpt,
    OrOpt,
    ThreeOpt,
    Relocate,
    RelocateWithoutPruning,
    Exchange,
}

pub const ENGINES: [(&str, Engine); 6] = [
    ("two_opt", Engine::TwoOpt),
    ("or_opt", Engine::OrOpt),
    ("three_opt", Engine::ThreeOpt),
    ("relocate", Engine::Relocate),
    ("relocate_np", Engine::RelocateWithoutPruning),
    ("exchange", Engine::Exchange),
];

impl Engine {
    pub fn named(name: &str) -> Option<Engine> {
        ENGINES.iter().find(|(known, _)| *known == name).map(|(_, engine)| *engine)
    }

    /// Whether it works on the list asked for alone.
    pub fn within_a_list(self) -> bool {
        matches!(self, Engine::TwoOpt | Engine::OrOpt | Engine::ThreeOpt)
    }
}

/// A move: the lists after it, and the numbers of those that must pass and, across lists, be within capacity.
pub struct Move {
    pub after: Lists,
    pub tested: Vec<usize>,
}

fn of_one_list(list: Vec<u16>) -> Move {
    Move { after: vec![list], tested: vec![0] }
}

/// Every move of the engine on these lists, whether it passes or not.
pub fn candidates(engine: Engine, lists: &Lists) -> Vec<Move> {
    let mut moves = Vec::new();
    match (engine, lists.first()) {
        (Engine::TwoOpt, Some(list)) => reversals(list, &mut moves),
        (Engine::OrOpt, Some(list)) => pieces(list, &mut moves),
        (Engine::ThreeOpt, Some(list)) => rearrangements(list, &mut moves),
        (Engine::Relocate | Engine::RelocateWithoutPruning, _) => relocations(lists, &mut moves),
        (Engine::Exchange, _) => tail_exchanges(lists, &mut moves),
        (_, None) => {}
    }
    moves
}

/// 2-opt: reverse a run of two or more.
fn reversals(list: &[u16], moves: &mut Vec<Move>) {
    for start in 0..list.len() {
        for end in start + 2..=list.len() {
            let mut after = list.to_vec();
            after[start..end].reverse();
            moves.push(of_one_list(after));
        }
    }
}

/// Or-opt: a piece of 1 to 3, shorter than the list, goes before the visit at position `to` of the original list, 0 to n
/// minus the piece's length, not from its start to its end.
fn pieces(list: &[u16], moves: &mut Vec<Move>) {
    for size in (1..=3).filter(|size| *size < list.len()) {
        for start in 0..=list.len() - size {
            let end = start + size;
            for to in (0..=list.len() - size).filter(|to| !(start..=end).contains(to)) {
                let mut after = Vec::with_capacity(list.len());
                for (position, visit) in list.iter().enumerate() {
                    if position == to {
                        after.extend_from_slice(&list[start..end]);
                    }
                    if !(start..end).contains(&position) {
                        after.push(*visit);
                    }
                }
                moves.push(of_one_list(after));
            }
        }
    }
}

/// 3-opt: lists of 4 or more; the first visit stays; pieces B and C, neither empty, take one of seven rearrangements.
fn rearrangements(list: &[u16], moves: &mut Vec<Move>) {
    if list.len() < 4 {
        return;
    }
    for b in 1..list.len() {
        for c in b + 1..list.len() {
            for d in c + 1..=list.len() {
                for rearrangement in 1..8 {
                    moves.push(of_one_list(rearranged(list, b, c, d, rearrangement)));
                }
            }
        }
    }
}

/// B and C start at those positions and D behind them: bit 0 turns B, bit 1 turns C, bit 2 puts C before B.
fn rearranged(list: &[u16], b: usize, c: usize, d: usize, rearrangement: u8) -> Vec<u16> {
    let (mut second, mut third) = (list[b..c].to_vec(), list[c..d].to_vec());
    if rearrangement & 1 != 0 {
        second.reverse();
    }
    if rearrangement & 2 != 0 {
        third.reverse();
    }
    if rearrangement & 4 != 0 {
        (second, third) = (third, second);
    }
    [&list[..b], &second, &third, &list[d..]].concat()
}

/// Relocate: one visit goes to any place of another list, an empty one included; the receiver is tested, the giver isn't.
fn relocations(lists: &Lists, moves: &mut Vec<Move>) {
    for (giver, list) in lists.iter().enumerate() {
        for position in 0..list.len() {
            for receiver in (0..lists.len()).filter(|receiver| *receiver != giver) {
                for place in 0..=lists[receiver].len() {
                    let mut after = lists.clone();
                    let visit = after[giver].remove(position);
                    after[receiver].insert(place, visit);
                    moves.push(Move { after, tested: vec![receiver] });
                }
            }
        }
    }
}

/// Tail exchange: each head has one visit or more; both lists are tested.
fn tail_exchanges(lists: &Lists, moves: &mut Vec<Move>) {
    for one in 0..lists.len() {
        for other in one + 1..lists.len() {
            for cut in 1..=lists[one].len() {
                for other_cut in 1..=lists[other].len() {
                    let (head, tail) = lists[one].split_at(cut);
                    let (other_head, other_tail) = lists[other].split_at(other_cut);
                    let mut after = lists.clone();
                    after[one] = [head, other_tail].concat();
                    after[other] = [other_head, tail].concat();
                    moves.push(Move { after, tested: vec![one, other] });
                }
            }
        }
    }
}

/// Whether document 01 permits the move: the lists it names pass and, across lists, are within capacity.
pub fn permitted(instance: &Instance, engine: Engine, step: &Move) -> bool {
    let capacity = |list: &[u16]| engine.within_a_list() || instance.within_capacity(list);
    step.tested.iter().all(|number| capacity(&step.after[*number]) && instance.passes(&step.after[*number]))
}

/// The lists after each permitted move that lowers the sum, to `least` at the lowest.
pub fn lowered(instance: &Instance, engine: Engine, lists: &Lists, least: u64) -> Vec<Lists> {
    let sum = instance.sum(lists);
    let suits = |step: &Move| (least..sum).contains(&instance.sum(&step.after)) && permitted(instance, engine, step);
    candidates(engine, lists).into_iter().filter(suits).map(|step| step.after).collect()
}

/// Whether no permitted move lowers the sum.
pub fn settled(instance: &Instance, engine: Engine, lists: &Lists) -> bool {
    lowered(instance, engine, lists, 0).is_empty()
}

/// Lists that exactly so many moves, each permitted and each lowering the sum, lead to from the lists lent. Not all of them:
/// 0 moves lead to the lists lent, and the ends of chains found are added.
pub type Reached = BTreeMap<u64, Vec<Lists>>;

/// The lists with that sum at the end of chains of exactly so many such moves, of which the goal holds. The search starts at
/// the last lists reached, and where that finds none at the ones before, so that it is complete.
pub fn chain_ends(instance: &Instance, engine: Engine, reached: &Reached, moves: u64, sum: u64, goal: impl Fn(&Lists) -> bool) -> Vec<Lists> {
    for (made, lists) in reached.range(..=moves).rev() {
        let mut level = lists.clone();
        for left in (0..moves - made).rev() {
            level = level.iter().flat_map(|lists| lowered(instance, engine, lists, sum + left)).collect();
            level.sort_unstable();
            level.dedup();
            if level.is_empty() {
                break;
            }
        }
        level.retain(&goal);
        if !level.is_empty() {
            return level;
        }
    }
    Vec::new()
}
