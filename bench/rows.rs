//! A row: one entry on one day, by three sides. An entry tests its whole input for refusals, which the Rust doesn't; so the
//! refusals alone are a side of their own.
use crate::call;
use crate::call_of_fleet;
use crate::callgrind;
use crate::days::day::{Day, Lent};
use crate::dumps::Counts;
use crate::planner::{planner_refusal, planner_refusal_of_fleet, planner_refusal_of_lists, Van};
use crate::published::Published;
use crate::timed_days::Kind;
use crate::timing::{self, Times};
use std::collections::HashMap;
use std::fmt::{self, Debug, Display};
use std::hint::black_box;

pub const SIDES: [&str; 3] = ["rust", "refusals", "entry"];

pub struct Sides<'a> {
    pub rust: &'a mut dyn FnMut(),
    pub refusals: &'a mut dyn FnMut(),
    pub entry: &'a mut dyn FnMut(),
    /// The clock of the list alone, of a check that has one: timed, not counted.
    pub chain: Option<&'a mut dyn FnMut()>,
}

/// What is run.
#[derive(Clone)]
pub struct Row {
    pub entry: &'static str,
    pub kind: &'static str,
    pub offices: usize,
    pub lists: usize,
    /// The moves that both sides make, where they make any, and whether the limit ended them.
    pub moves: Option<(u64, bool)>,
}

impl Display for Row {
    fn fmt(&self, out: &mut fmt::Formatter) -> fmt::Result {
        let lists = if self.lists == 1 { "1 list".to_string() } else { format!("{} lists", self.lists) };
        write!(out, "{}, {}, {} offices, {lists}", self.entry, self.kind, self.offices)
    }
}

/// A day as each side takes it.
pub struct Both {
    pub kind: Kind,
    pub offices: usize,
    pub lists: usize,
    pub rust: Published,
    pub lent: Lent,
    /// The first.
    pub van: Van,
}

impl Both {
    /// A day of one van.
    pub fn of(kind: Kind, offices: usize, lists: usize) -> Both {
        Both::lending(kind, offices, lists, &kind.day(offices, lists))
    }

    /// A day of a fleet.
    pub fn of_fleet(kind: Kind, offices: usize, lists: usize) -> Both {
        Both::lending(kind, offices, lists, &kind.fleet_day(offices, lists))
    }

    fn lending(kind: Kind, offices: usize, lists: usize, day: &Day) -> Both {
        Both { kind, offices, lists, rust: Published::of(day), lent: Lent::of(day), van: Van::of(&day.vans[0]) }
    }

    pub fn row(&self, entry: &'static str) -> Row {
        Row { entry, kind: self.kind.name, offices: self.offices, lists: self.lists, moves: None }
    }

    /// The refusals of a call that asks for the first list.
    pub fn refusal(&self) -> u8 {
        let lent = black_box(&self.lent);
        call!(planner_refusal, lent, self.van, lent.visits.as_ptr(), lent.visits.len(), lent.lengths.as_ptr(), lent.lengths.len(), 0)
    }

    /// The refusals of a call over all lists.
    pub fn refusal_of_lists(&self) -> u8 {
        let lent = black_box(&self.lent);
        call!(planner_refusal_of_lists, lent, self.van, lent.visits.as_ptr(), lent.visits.len(), lent.lengths.as_ptr(), lent.lengths.len())
    }

    /// The refusals of a call over the lists of a fleet.
    pub fn refusal_of_fleet(&self) -> u8 {
        let lent = black_box(&self.lent);
        call_of_fleet!(planner_refusal_of_fleet, lent, lent.visits.as_ptr(), lent.lengths.as_ptr(), lent.van_ids.as_ptr())
    }
}

/// The lists of a table of visits, as the Rust has them.
pub fn lists_of(visits: &[u16], lengths: &[u16]) -> Vec<Vec<usize>> {
    let mut rest = visits.iter().map(|visit| usize::from(*visit));
    lengths.iter().map(|length| rest.by_ref().take(usize::from(*length)).collect()).collect()
}

/// Ends the run where the sides differ.
pub fn agree<T: PartialEq + Debug>(row: &Row, rust: &T, refusal: u8, entry: &T) {
    assert_eq!(refusal, 0, "the library refuses: {row}");
    assert_eq!(entry, rust, "the library (left) and the Rust (right) differ: {row}");
}

/// What was measured of a row.
pub struct Figures {
    pub row: Row,
    pub times: Times,
    pub counts: Option<Counts>,
}

pub enum Way {
    Count,
    Time(HashMap<String, Counts>),
}

pub struct Bench {
    way: Way,
    part: Option<String>,
    pub figures: Vec<Figures>,
}

impl Bench {
    pub fn new(way: Way) -> Bench {
        Bench { way, part: std::env::var("ROWS").ok(), figures: Vec::new() }
    }

    /// Whether a row is to be run.
    pub fn wants(&self, row: &Row) -> bool {
        self.part.as_ref().is_none_or(|part| row.to_string().contains(part))
    }

    /// Measures one row by calls of its three sides; what they answer is thrown away.
    pub fn measure<R, E>(&mut self, row: Row, rust: impl FnMut() -> R, refusals: impl FnMut() -> u8, entry: impl FnMut() -> E) {
        self.measure_sides(row, Sides { rust: &mut called(rust), refusals: &mut called(refusals), entry: &mut called(entry), chain: None });
    }

    pub fn measure_sides(&mut self, row: Row, mut sides: Sides) {
        let name = row.to_string();
        let Way::Time(counts) = &self.way else {
            for (side, call) in SIDES.into_iter().zip([sides.rust, sides.refusals, sides.entry]) {
                callgrind::count(&format!("row {name} side {side}"), call);
            }
            return;
        };
        let times = timing::times(&mut sides);
        let counts = counts.get(&name).cloned();
        let counted = counts.as_ref().map_or(f64::NAN, Counts::less);
        println!("{name:<60}{:>12.0} ns{:>7.2}{:>7.2}   instructions{counted:>6.2}", times.rust, times.less, times.whole);
        self.figures.push(Figures { row, times, counts });
    }
}

pub fn called<T>(mut side: impl FnMut() -> T) -> impl FnMut() {
    move || {
        black_box(side());
    }
}
