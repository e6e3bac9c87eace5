//! Rows of the engines within a list, on a day of one list.
use crate::call;
use crate::distance::DistanceMatrix;
use crate::evaluation::RouteLimits;
use crate::local_search;
use crate::models::Customer;
use crate::oracle;
use crate::planner::*;
use crate::rows::{agree, Bench, Both, Row};
use crate::timed_days::{KINDS, OFFICES};
use std::hint::black_box;

#[derive(Clone, Copy, PartialEq)]
enum Engine {
    TwoOpt,
    OrOpt,
    ThreeOpt,
}

type Published = fn(&[usize], usize, &DistanceMatrix, &[Customer], &RouteLimits) -> (Vec<usize>, f64);

pub fn rows(bench: &mut Bench) {
    for engine in [Engine::TwoOpt, Engine::OrOpt, Engine::ThreeOpt] {
        for kind in KINDS {
            for offices in OFFICES {
                row(bench, engine, &Both::of(kind, offices, 1));
            }
        }
    }
}

/// What a run answers: the list, the bits of its distance, the moves, and whether it settled.
type Ran = (Vec<usize>, u64, u64, bool);

impl Engine {
    fn name(self) -> &'static str {
        match self {
            Engine::TwoOpt => "two_opt_improve",
            Engine::OrOpt => "or_opt_improve",
            Engine::ThreeOpt => "three_opt_improve",
        }
    }

    /// Where a run takes long, the limit ends both sides after the same few moves.
    fn limit(self, both: &Both) -> u32 {
        match (self, both.offices) {
            (Engine::ThreeOpt, 63) if both.kind.is_soft() => 0,
            (Engine::ThreeOpt, 30) if both.kind.is_soft() => 4,
            (_, 63) if both.kind.is_soft() => 10,
            (Engine::ThreeOpt, 63) if both.kind.is_hard() => 50,
            _ => u32::MAX,
        }
    }

    fn rust(self, both: &Both) -> Ran {
        let improve: Published = match self {
            Engine::TwoOpt => local_search::two_opt_improve,
            Engine::OrOpt => local_search::or_opt_improve,
            Engine::ThreeOpt => local_search::three_opt_improve,
        };
        let day = black_box(&both.rust);
        oracle::start(u64::from(self.limit(both)), true);
        let (list, distance) = improve(&day.route, 0, &day.distances, &day.customers, &day.limits);
        (list, distance.to_bits(), oracle::moves(), !oracle::halted())
    }
}

/// The places that the entry changes.
struct Changed {
    visits: Vec<u16>,
    settled: u8,
    moves: u32,
    distance: f64,
}

impl Changed {
    fn of(both: &Both) -> Changed {
        Changed { visits: both.lent.visits.clone(), settled: 0, moves: 0, distance: 0.0 }
    }

    /// Runs the entry on the list as it is lent.
    fn run(&mut self, engine: Engine, both: &Both) -> u8 {
        let lent = black_box(&both.lent);
        self.visits.copy_from_slice(&lent.visits);
        macro_rules! improve {
            ($name:ident) => {
                call!($name, lent, both.van, self.visits.as_mut_ptr(), self.visits.len(), lent.lengths.as_ptr(), lent.lengths.len(), 0,
                    engine.limit(both), &mut self.settled, &mut self.moves, &mut self.distance)
            };
        }
        match engine {
            Engine::TwoOpt => improve!(planner_two_opt_improve),
            Engine::OrOpt => improve!(planner_or_opt_improve),
            Engine::ThreeOpt => improve!(planner_three_opt_improve),
        }
    }

    fn ran(&self) -> Ran {
        let list = self.visits.iter().map(|visit| usize::from(*visit)).collect();
        (list, self.distance.to_bits(), u64::from(self.moves), self.settled == 1)
    }
}

fn row(bench: &mut Bench, engine: Engine, both: &Both) {
    let row = both.row(engine.name());
    if !bench.wants(&row) {
        return;
    }
    let mut changed = Changed::of(both);
    let refusal = changed.run(engine, both);
    let ran = changed.ran();
    agree(&row, &engine.rust(both), refusal, &ran);
    bench.measure(Row { moves: Some((ran.2, ran.3)), ..row }, || engine.rust(both), || both.refusal(), || changed.run(engine, both));
}
