//! Rows of the engines between all lists of one van. On a day of one list both sides hand it back as it is: there are no such rows.
use crate::call;
use crate::distance::DistanceMatrix;
use crate::local_search;
use crate::models::{Customer, Solution, Vehicle};
use crate::oracle;
use crate::planner::*;
use crate::rows::{agree, lists_of, Bench, Both, Row};
use crate::timed_days::KINDS;
use std::hint::black_box;

#[derive(Clone, Copy)]
enum Engine {
    Relocate,
    Exchange,
}

type Published = fn(&Solution, &[Customer], &DistanceMatrix, &Vehicle) -> Solution;

/// Offices and lists.
const DAYS: [(usize, usize); 5] = [(10, 4), (30, 4), (63, 4), (30, 16), (63, 16)];
const LIMIT: u32 = 200;

pub fn rows(bench: &mut Bench) {
    for engine in [Engine::Relocate, Engine::Exchange] {
        for kind in KINDS {
            for (offices, lists) in DAYS {
                row(bench, engine, &Both::of(kind, offices, lists));
            }
        }
    }
}

/// What a run answers: the lists that remain, the moves, and whether it settled.
type Ran = (Vec<Vec<usize>>, u64, bool);

impl Engine {
    fn name(self) -> &'static str {
        match self {
            Engine::Relocate => "relocate_improve",
            Engine::Exchange => "exchange_improve",
        }
    }

    fn rust(self, both: &Both) -> Solution {
        let improve: Published = match self {
            Engine::Relocate => local_search::relocate_improve,
            Engine::Exchange => local_search::exchange_improve,
        };
        let day = black_box(&both.rust);
        oracle::start(u64::from(LIMIT), true);
        improve(&day.solution, &day.customers, &day.distances, &day.vehicles[0])
    }
}

/// The places that the entry changes.
struct Changed {
    visits: Vec<u16>,
    lengths: Vec<u16>,
    settled: u8,
    moves: u32,
    remaining: usize,
}

impl Changed {
    fn of(both: &Both) -> Changed {
        Changed { visits: both.lent.visits.clone(), lengths: both.lent.lengths.clone(), settled: 0, moves: 0, remaining: 0 }
    }

    /// Runs the entry on the lists as they are lent.
    fn run(&mut self, engine: Engine, both: &Both) -> u8 {
        let lent = black_box(&both.lent);
        self.visits.copy_from_slice(&lent.visits);
        self.lengths.copy_from_slice(&lent.lengths);
        macro_rules! improve {
            ($name:ident $(, $more:expr)*) => {
                call!($name, lent, both.van, self.visits.as_mut_ptr(), self.visits.len(), self.lengths.as_mut_ptr(), self.lengths.len(),
                    LIMIT $(, $more)*, &mut self.settled, &mut self.moves, &mut self.remaining)
            };
        }
        match engine {
            Engine::Relocate => improve!(planner_relocate_improve, 1),
            Engine::Exchange => improve!(planner_exchange_improve),
        }
    }

    fn ran(&self) -> Ran {
        (lists_of(&self.visits, &self.lengths[..self.remaining]), u64::from(self.moves), self.settled == 1)
    }
}

fn row(bench: &mut Bench, engine: Engine, both: &Both) {
    let row = both.row(engine.name());
    if !bench.wants(&row) {
        return;
    }
    let solution = engine.rust(both);
    let expected: Ran = (solution.routes().iter().map(|route| route.customer_ids()).collect(), oracle::moves(), !oracle::halted());
    let mut changed = Changed::of(both);
    let refusal = changed.run(engine, both);
    agree(&row, &expected, refusal, &changed.ran());
    bench.measure(Row { moves: Some((expected.1, expected.2)), ..row }, || engine.rust(both), || both.refusal_of_lists(), || changed.run(engine, both));
}
