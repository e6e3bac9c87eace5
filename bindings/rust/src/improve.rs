//! 2-opt, Or-opt and 3-opt: one list changed in place.
use crate::library::{planner_or_opt_improve, planner_three_opt_improve, planner_two_opt_improve};
use crate::{Day, ListsMut, Refusal, Vehicle};
use core::fmt::{self, Display, Formatter};

/// How a run ended.
#[derive(Clone, Copy, Debug, PartialEq, Eq, Hash)]
pub enum End {
    /// No permitted move gains any more.
    Settled,
    /// The limit was used up, and another move would gain.
    Stopped,
}

impl End {
    pub(crate) fn read(settled: u8) -> End {
        if settled == 1 {
            End::Settled
        } else {
            End::Stopped
        }
    }
}

impl Display for End {
    fn fmt(&self, text: &mut Formatter<'_>) -> fmt::Result {
        text.write_str(match self {
            End::Settled => "settled",
            End::Stopped => "stopped",
        })
    }
}

/// A run over one list.
#[derive(Clone, Copy, Debug, PartialEq)]
pub struct Improved {
    /// How it ended.
    pub end: End,
    /// The moves made.
    pub moves: u32,
    /// The distance of the list handed back.
    pub distance: f64,
}

/// An engine within a list: its words, its name here, and the library's entry.
macro_rules! engine {
    ($(#[$words:meta])* $name:ident, $entry:ident) => {
        $(#[$words])*
        ///
        /// At most `limit` moves. Every other list and the lengths stay as they were. With a soft window anywhere on the day
        /// the same moves are searched over distance plus lateness cost.
        pub fn $name(
            lists: &mut ListsMut<'_>,
            list: usize,
            day: &Day<'_>,
            vehicle: &Vehicle,
            limit: u32,
        ) -> Result<Improved, Refusal> {
            let (mut settled, mut moves, mut distance) = (0, 0, 0.0);
            let ListsMut { visits, lengths } = lists;
            Refusal::read($entry(day, *vehicle, visits, lengths, list, limit, &mut settled, &mut moves, &mut distance))?;
            Ok(Improved { end: End::read(settled), moves, distance })
        }
    };
}

engine! {
    /// 2-opt (Croes 1958) of one list: a run of two visits or more is reversed.
    two_opt_improve, planner_two_opt_improve
}
engine! {
    /// Or-opt (Or 1976) of one list: a piece of 1 to 3 visits goes to another place.
    or_opt_improve, planner_or_opt_improve
}
engine! {
    /// 3-opt (Lin 1965) of one list of four visits or more: two pieces take one of seven rearrangements.
    three_opt_improve, planner_three_opt_improve
}
