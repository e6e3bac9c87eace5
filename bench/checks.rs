//! Rows of the route check, on a day of one list: table, route_distance, route_feasible, route_eval, schedule.
use crate::call;
use crate::call_of_list;
use crate::chain::Chain;
use crate::evaluation::{self, RouteEval};
use crate::local_search;
use crate::models::num_depots;
use crate::planner::*;
use crate::rows::{agree, called, Bench, Both, Row, Sides};
use crate::timed_days::{BREAK_KINDS, KINDS, OFFICES, UNCONSTRAINED};
use std::cell::RefCell;
use std::fmt::Debug;
use std::hint::black_box;

pub fn rows(bench: &mut Bench) {
    for offices in OFFICES {
        table(bench, &Both::of(UNCONSTRAINED, offices, 1));
    }
    for offices in OFFICES {
        route_distance(bench, &Both::of(UNCONSTRAINED, offices, 1));
    }
    for kind in KINDS {
        for offices in OFFICES {
            route_feasible(bench, &Both::of(kind, offices, 1));
        }
    }
    for kind in KINDS {
        for offices in OFFICES {
            route_eval(bench, &Both::of(kind, offices, 1));
        }
    }
    for kind in BREAK_KINDS {
        for offices in OFFICES {
            schedule(bench, &Both::of(kind, offices, 1));
        }
    }
}

/// The answers compared, then the row. The entry answers the refusal's number too.
fn check<T: PartialEq + Debug>(bench: &mut Bench, row: Row, rust: impl Fn() -> T, refusals: impl Fn() -> u8, entry: impl Fn() -> (u8, T)) {
    if bench.wants(&row) {
        compare(&row, &rust, &entry);
        bench.measure(row, rust, refusals, entry);
    }
}

/// The same of a check that follows the clock, which is measured for itself.
fn timed_check<T: PartialEq + Debug>(bench: &mut Bench, both: &Both, name: &'static str, rust: impl Fn() -> T, entry: impl Fn() -> (u8, T)) {
    let row = both.row(name);
    if bench.wants(&row) {
        compare(&row, &rust, &entry);
        let clock = Chain::of(&both.rust);
        let mut back = 0.0;
        let mut chain = called(|| {
            back = black_box(&clock).end_after(back);
            back
        });
        let refusals = || both.refusal();
        let sides = Sides { rust: &mut called(rust), refusals: &mut called(refusals), entry: &mut called(entry), chain: Some(&mut chain) };
        bench.measure_sides(row, sides);
    }
}

fn compare<T: PartialEq + Debug>(row: &Row, rust: &impl Fn() -> T, entry: &impl Fn() -> (u8, T)) {
    let (refusal, answer) = entry();
    agree(row, &rust(), refusal, &answer);
}

/// What is worked out of day and van before the first move. The Rust's matrix keeps scale and symmetry until an entry is set: here
/// one is set before each call. There is no list: the refusals are those of a call without one.
fn table(bench: &mut Bench, both: &Both) {
    let matrix = RefCell::new(both.rust.distances.clone());
    let rust = || {
        let mut distances = matrix.borrow_mut();
        let own = distances.get(0, 0);
        distances.set(0, 0, own);
        let day = black_box(&both.rust);
        let numbers = [distances.scale(), local_search::gain_floor(&distances), day.vehicles[0].fixed_cost_in_distance()];
        (numbers.map(f64::to_bits), u8::from(distances.symmetric()), num_depots(&day.customers))
    };
    let none: [u16; 0] = [];
    let refusals = || {
        let lent = black_box(&both.lent);
        call!(planner_refusal, lent, both.van, none.as_ptr(), 0, none.as_ptr(), 0, 0)
    };
    let entry = || {
        let (mut scale, mut floor, mut symmetric, mut fixed, mut depots) = (0.0, 0.0, 0, 0.0, 0);
        let lent = black_box(&both.lent);
        let refusal = call!(planner_table, lent, both.van, &mut scale, &mut floor, &mut symmetric, &mut fixed, &mut depots);
        (refusal, ([scale, floor, fixed].map(f64::to_bits), symmetric, depots))
    };
    check(bench, both.row("table"), rust, refusals, entry);
}

fn route_distance(bench: &mut Bench, both: &Both) {
    let rust = || local_search::route_distance(black_box(&both.rust.route), 0, &both.rust.distances).to_bits();
    let entry = || {
        let mut distance = 0.0;
        let lent = black_box(&both.lent);
        let refusal = call_of_list!(planner_route_distance, lent, both.van, 0, &mut distance);
        (refusal, distance.to_bits())
    };
    check(bench, both.row("route_distance"), rust, || both.refusal(), entry);
}

fn route_feasible(bench: &mut Bench, both: &Both) {
    let rust = || {
        let day = black_box(&both.rust);
        u8::from(evaluation::route_feasible(&day.route, 0, &day.distances, &day.customers, &day.limits))
    };
    let entry = || {
        let mut passes = 0;
        let lent = black_box(&both.lent);
        let refusal = call_of_list!(planner_route_feasible, lent, both.van, 0, &mut passes);
        (refusal, passes)
    };
    timed_check(bench, both, "route_feasible", rust, entry);
}

/// Distance, duration, lateness and its cost, by their bits.
type Numbers = [u64; 4];

fn route_eval(bench: &mut Bench, both: &Both) {
    let rust = || -> Option<Numbers> {
        let day = black_box(&both.rust);
        let found: RouteEval = evaluation::route_eval(&day.route, 0, &day.distances, &day.customers, &day.limits)?;
        Some([found.distance, found.duration, found.lateness, found.lateness_cost].map(f64::to_bits))
    };
    let entry = || {
        let mut passes = 0;
        let [mut distance, mut duration, mut lateness, mut cost] = [0.0; 4];
        let lent = black_box(&both.lent);
        let refusal = call_of_list!(planner_route_eval, lent, both.van, 0, &mut passes, &mut distance, &mut duration,
            &mut lateness, &mut cost);
        (refusal, (passes == 1).then_some([distance, duration, lateness, cost].map(f64::to_bits)))
    };
    timed_check(bench, both, "route_eval", rust, entry);
}

fn schedule(bench: &mut Bench, both: &Both) {
    let rest = both.rust.limits.rest.expect("a break");
    let rust = || -> Option<(Numbers, Option<(usize, u64)>)> {
        let day = black_box(&both.rust);
        let found = evaluation::schedule::schedule(&day.route, 0, &day.distances, &day.customers, &rest)?;
        let numbers = [found.distance, found.duration, found.lateness, found.lateness_cost].map(f64::to_bits);
        Some((numbers, found.rest.map(|(position, start)| (position, start.to_bits()))))
    };
    let entry = || {
        let (mut found, mut taken, mut position, mut start) = (0, 0, 0, 0.0);
        let [mut distance, mut duration, mut lateness, mut cost] = [0.0; 4];
        let lent = black_box(&both.lent);
        let refusal = call_of_list!(planner_schedule, lent, both.van, 0, &mut found, &mut distance, &mut duration,
            &mut lateness, &mut cost, &mut taken, &mut position, &mut start);
        let numbers = [distance, duration, lateness, cost].map(f64::to_bits);
        (refusal, (found == 1).then_some((numbers, (taken == 1).then_some((position, start.to_bits())))))
    };
    timed_check(bench, both, "schedule", rust, entry);
}
