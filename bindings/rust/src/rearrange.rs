//! Relocate and tail exchange: all lists changed in place.
use crate::library::{planner_exchange_improve, planner_relocate_improve};
use crate::{Day, End, ListsMut, Refusal, Vehicle};

/// A run over all lists. With two lists or more the empty ones are dropped at its end: the others keep their order, and the
/// lengths behind them are 0.
#[derive(Clone, Copy, Debug, PartialEq, Eq)]
pub struct Rearranged {
    /// How it ended.
    pub end: End,
    /// The moves made.
    pub moves: u32,
    /// How many lists remain.
    pub remaining: usize,
}

/// What a run over all lists writes beside the lists.
#[derive(Default)]
pub(crate) struct Written {
    pub settled: u8,
    pub moves: u32,
    pub remaining: usize,
}

impl Written {
    pub(crate) fn read(self, answer: u8) -> Result<Rearranged, Refusal> {
        Refusal::read(answer)?;
        Ok(Rearranged { end: End::read(self.settled), moves: self.moves, remaining: self.remaining })
    }
}

/// Relocate between all lists, by at most `limit` moves: one visit goes to any place of another list.
pub fn relocate_improve(lists: &mut ListsMut<'_>, day: &Day<'_>, vehicle: &Vehicle, limit: u32) -> Result<Rearranged, Refusal> {
    relocate(lists, day, vehicle, limit, 1)
}

/// Relocate by a search that leaves no candidate out: the same moves as [`relocate_improve`], found more slowly.
pub fn relocate_improve_unpruned(lists: &mut ListsMut<'_>, day: &Day<'_>, vehicle: &Vehicle, limit: u32) -> Result<Rearranged, Refusal> {
    relocate(lists, day, vehicle, limit, 0)
}

fn relocate(lists: &mut ListsMut<'_>, day: &Day<'_>, vehicle: &Vehicle, limit: u32, pruning: u8) -> Result<Rearranged, Refusal> {
    let mut written = Written::default();
    let Written { settled, moves, remaining } = &mut written;
    let answer = planner_relocate_improve(day, *vehicle, lists.visits, lists.lengths, limit, pruning, settled, moves, remaining);
    written.read(answer)
}

/// Tail exchange (Potvin and Rousseau 1995) between all lists, by at most `limit` moves.
pub fn exchange_improve(lists: &mut ListsMut<'_>, day: &Day<'_>, vehicle: &Vehicle, limit: u32) -> Result<Rearranged, Refusal> {
    let mut written = Written::default();
    let Written { settled, moves, remaining } = &mut written;
    let answer = planner_exchange_improve(day, *vehicle, lists.visits, lists.lengths, limit, settled, moves, remaining);
    written.read(answer)
}
