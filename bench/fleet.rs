//! Rows of cross-depot, between the lists of a fleet with several depots.
use crate::call_of_fleet;
use crate::local_search;
use crate::models::Solution;
use crate::oracle;
use crate::planner::*;
use crate::rows::{agree, lists_of, Bench, Both, Row};
use crate::timed_days::KINDS;
use std::hint::black_box;

/// Offices and lists.
const DAYS: [(usize, usize); 6] = [(30, 2), (10, 4), (30, 4), (60, 4), (30, 16), (60, 16)];
const LIMIT: u32 = 20;

pub fn rows(bench: &mut Bench) {
    for kind in KINDS {
        for (offices, lists) in DAYS {
            row(bench, &Both::of_fleet(kind, offices, lists));
        }
    }
}

/// What a run answers: the lists that remain with their vans' ids, the moves, and whether it settled.
type Ran = (Vec<(usize, Vec<usize>)>, u64, bool);

fn rust(both: &Both) -> Solution {
    let day = black_box(&both.rust);
    oracle::start(u64::from(LIMIT), true);
    local_search::cross_depot_improve(&day.solution, &day.customers, &day.distances, &day.vehicles)
}

/// The places that the entry changes.
struct Changed {
    visits: Vec<u16>,
    lengths: Vec<u16>,
    van_ids: Vec<u32>,
    settled: u8,
    moves: u32,
    remaining: usize,
}

impl Changed {
    fn of(both: &Both) -> Changed {
        let lent = &both.lent;
        let (visits, lengths, van_ids) = (lent.visits.clone(), lent.lengths.clone(), lent.van_ids.clone());
        Changed { visits, lengths, van_ids, settled: 0, moves: 0, remaining: 0 }
    }

    /// Runs the entry on the lists as they are lent.
    fn run(&mut self, both: &Both) -> u8 {
        let lent = black_box(&both.lent);
        self.visits.copy_from_slice(&lent.visits);
        self.lengths.copy_from_slice(&lent.lengths);
        self.van_ids.copy_from_slice(&lent.van_ids);
        call_of_fleet!(planner_cross_depot_improve, lent, self.visits.as_mut_ptr(), self.lengths.as_mut_ptr(),
            self.van_ids.as_mut_ptr(), LIMIT, &mut self.settled, &mut self.moves, &mut self.remaining)
    }

    fn ran(&self) -> Ran {
        let ids = self.van_ids.iter().map(|id| *id as usize);
        let lists = ids.zip(lists_of(&self.visits, &self.lengths[..self.remaining])).collect();
        (lists, u64::from(self.moves), self.settled == 1)
    }
}

fn row(bench: &mut Bench, both: &Both) {
    let row = both.row("cross_depot_improve");
    if !bench.wants(&row) {
        return;
    }
    let solution = rust(both);
    let lists = solution.routes().iter().map(|route| (route.vehicle_id(), route.customer_ids())).collect();
    let expected: Ran = (lists, oracle::moves(), !oracle::halted());
    let mut changed = Changed::of(both);
    let refused = changed.run(both);
    agree(&row, &expected, refused, &changed.ran());
    bench.measure(Row { moves: Some((expected.1, expected.2)), ..row }, || rust(both), || both.refusal_of_fleet(), || changed.run(both));
}
