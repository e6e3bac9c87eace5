//! The exports of libplanner_c.a (include/planner.h says what each does), and calls of them over lent slices.
use crate::days::day::{self, Lent};

#[repr(C)]
#[derive(Clone, Copy)]
pub struct Van {
    id: u32,
    depot: usize,
    capacity: i32,
    cost_per_distance: f64,
    fixed_cost: f64,
    flags: u8,
    max_distance: f64,
    max_duration: f64,
    earliest: f64,
    latest: f64,
    duration: f64,
}

impl Van {
    pub fn of(van: &day::Van) -> Van {
        Van {
            id: van.id,
            depot: van.depot as usize,
            capacity: van.capacity,
            cost_per_distance: van.cost_per_distance,
            fixed_cost: van.fixed_cost,
            flags: van.flags,
            max_distance: van.max_distance,
            max_duration: van.max_duration,
            earliest: van.earliest,
            latest: van.latest,
            duration: van.duration,
        }
    }
}

/// A function of the library over day and van, then its own parameters.
macro_rules! exports {
    ($($name:ident($($parameter:ident: $kind:ty),*);)*) => {
        extern "C" {
            $(pub fn $name(
                l: usize,
                flags: *const u8, flags_count: usize,
                demand: *const i32, demand_count: usize,
                service: *const f64, service_count: usize,
                ready: *const f64, ready_count: usize,
                due: *const f64, due_count: usize,
                penalty: *const f64, penalty_count: usize,
                distances: *const f64, distances_count: usize,
                times: *const f64, times_count: usize,
                van: Van,
                $($parameter: $kind),*
            ) -> u8;)*
        }
    };
}

/// The same, with the lists and the number of the list asked for before its own parameters.
macro_rules! exports_of_list {
    ($($name:ident($($parameter:ident: $kind:ty),*);)*) => {
        exports! {
            $($name(
                visits: *const u16, visits_count: usize, lengths: *const u16, lengths_count: usize, list: usize,
                $($parameter: $kind),*
            );)*
        }
    };
}

exports! {
    planner_table(scale: *mut f64, floor: *mut f64, symmetric: *mut u8, fixed: *mut f64, depots: *mut usize);
}
exports_of_list! {
    planner_route_distance(distance: *mut f64);
    planner_route_feasible(passes: *mut u8);
    planner_route_eval(passes: *mut u8, distance: *mut f64, duration: *mut f64, lateness: *mut f64, lateness_cost: *mut f64);
    planner_schedule(found: *mut u8, distance: *mut f64, duration: *mut f64, lateness: *mut f64, lateness_cost: *mut f64,
        taken: *mut u8, position: *mut usize, start: *mut f64);
}

exports! {
    planner_two_opt_improve(visits: *mut u16, visits_count: usize, lengths: *const u16, lengths_count: usize, list: usize,
        limit: u32, settled: *mut u8, moves: *mut u32, distance: *mut f64);
    planner_or_opt_improve(visits: *mut u16, visits_count: usize, lengths: *const u16, lengths_count: usize, list: usize,
        limit: u32, settled: *mut u8, moves: *mut u32, distance: *mut f64);
    planner_three_opt_improve(visits: *mut u16, visits_count: usize, lengths: *const u16, lengths_count: usize, list: usize,
        limit: u32, settled: *mut u8, moves: *mut u32, distance: *mut f64);
}

exports! {
    planner_relocate_improve(visits: *mut u16, visits_count: usize, lengths: *mut u16, lengths_count: usize, limit: u32,
        pruning: u8, settled: *mut u8, moves: *mut u32, remaining: *mut usize);
    planner_exchange_improve(visits: *mut u16, visits_count: usize, lengths: *mut u16, lengths_count: usize, limit: u32,
        settled: *mut u8, moves: *mut u32, remaining: *mut usize);
}

exports! {
    planner_refusal(visits: *const u16, visits_count: usize, lengths: *const u16, lengths_count: usize, list: usize);
    planner_refusal_of_lists(visits: *const u16, visits_count: usize, lengths: *const u16, lengths_count: usize);
}

/// A function of the library over day, fleet and lists, the van ids and the prices of the lists, then its own parameters.
macro_rules! exports_of_fleet {
    ($($name:ident($changed:tt; $($parameter:ident: $kind:ty),*);)*) => {
        extern "C" {
            $(pub fn $name(
                l: usize,
                flags: *const u8, flags_count: usize,
                demand: *const i32, demand_count: usize,
                service: *const f64, service_count: usize,
                ready: *const f64, ready_count: usize,
                due: *const f64, due_count: usize,
                penalty: *const f64, penalty_count: usize,
                distances: *const f64, distances_count: usize,
                times: *const f64, times_count: usize,
                van_ids: *const u32, van_ids_count: usize,
                depots: *const usize, depots_count: usize,
                capacities: *const i32, capacities_count: usize,
                distance_costs: *const f64, distance_costs_count: usize,
                fixed_costs: *const f64, fixed_costs_count: usize,
                van_flags: *const u8, van_flags_count: usize,
                max_distances: *const f64, max_distances_count: usize,
                max_durations: *const f64, max_durations_count: usize,
                earliest: *const f64, earliest_count: usize,
                latest: *const f64, latest_count: usize,
                durations: *const f64, durations_count: usize,
                visits: *$changed u16, visits_count: usize,
                lengths: *$changed u16, lengths_count: usize,
                ids: *$changed u32, ids_count: usize,
                prices: *const f64, prices_count: usize,
                $($parameter: $kind),*
            ) -> u8;)*
        }
    };
}

exports_of_fleet! {
    planner_refusal_of_fleet(const;);
    planner_cross_depot_improve(mut; limit: u32, settled: *mut u8, moves: *mut u32, remaining: *mut usize);
}

/// Calls one of `exports_of_fleet!`; the lists, their lengths and van ids are given as pointers.
#[macro_export]
macro_rules! call_of_fleet {
    ($name:ident, $lent:expr, $visits:expr, $lengths:expr, $ids:expr $(, $argument:expr)*) => {
        // SAFETY: each pointer is a Vec's with its own length, or a local's, and no two of them overlap.
        unsafe {
            $name(
                $lent.locations as usize,
                $lent.flags.as_ptr(), $lent.flags.len(),
                $lent.demand.as_ptr(), $lent.demand.len(),
                $lent.service.as_ptr(), $lent.service.len(),
                $lent.ready.as_ptr(), $lent.ready.len(),
                $lent.due.as_ptr(), $lent.due.len(),
                $lent.penalty.as_ptr(), $lent.penalty.len(),
                $lent.distances.as_ptr(), $lent.distances.len(),
                $lent.times.as_ptr(), $lent.times.len(),
                $lent.fleet.ids.as_ptr(), $lent.fleet.ids.len(),
                $lent.fleet.depots.as_ptr(), $lent.fleet.depots.len(),
                $lent.fleet.capacities.as_ptr(), $lent.fleet.capacities.len(),
                $lent.fleet.distance_costs.as_ptr(), $lent.fleet.distance_costs.len(),
                $lent.fleet.fixed_costs.as_ptr(), $lent.fleet.fixed_costs.len(),
                $lent.fleet.flags.as_ptr(), $lent.fleet.flags.len(),
                $lent.fleet.max_distances.as_ptr(), $lent.fleet.max_distances.len(),
                $lent.fleet.max_durations.as_ptr(), $lent.fleet.max_durations.len(),
                $lent.fleet.earliest.as_ptr(), $lent.fleet.earliest.len(),
                $lent.fleet.latest.as_ptr(), $lent.fleet.latest.len(),
                $lent.fleet.durations.as_ptr(), $lent.fleet.durations.len(),
                $visits, $lent.visits.len(),
                $lengths, $lent.lengths.len(),
                $ids, $lent.van_ids.len(),
                $lent.prices.as_ptr(), $lent.prices.len(),
                $($argument),*
            )
        }
    };
}

/// Calls one of `exports!`.
#[macro_export]
macro_rules! call {
    ($name:ident, $lent:expr, $van:expr, $($argument:expr),*) => {
        // SAFETY: each pointer is a Vec's with its own length, or a local's, and no two of them overlap.
        unsafe {
            $name(
                $lent.locations as usize,
                $lent.flags.as_ptr(), $lent.flags.len(),
                $lent.demand.as_ptr(), $lent.demand.len(),
                $lent.service.as_ptr(), $lent.service.len(),
                $lent.ready.as_ptr(), $lent.ready.len(),
                $lent.due.as_ptr(), $lent.due.len(),
                $lent.penalty.as_ptr(), $lent.penalty.len(),
                $lent.distances.as_ptr(), $lent.distances.len(),
                $lent.times.as_ptr(), $lent.times.len(),
                $van,
                $($argument),*
            )
        }
    };
}

/// Calls one of `exports_of_list!`.
#[macro_export]
macro_rules! call_of_list {
    ($name:ident, $lent:expr, $van:expr, $list:expr, $($argument:expr),*) => {
        call!($name, $lent, $van, $lent.visits.as_ptr(), $lent.visits.len(), $lent.lengths.as_ptr(), $lent.lengths.len(),
            $list as usize, $($argument),*)
    };
}

/// Whether every table still holds what was lent, by bits.
pub fn untouched(lent: &Lent, copy: &Lent) -> bool {
    let same = |ours: &[f64], theirs: &[f64]| ours.iter().zip(theirs).all(|(a, b)| a.to_bits() == b.to_bits());
    lent.flags == copy.flags
        && lent.demand == copy.demand
        && same(&lent.service, &copy.service)
        && same(&lent.ready, &copy.ready)
        && same(&lent.due, &copy.due)
        && same(&lent.penalty, &copy.penalty)
        && same(&lent.distances, &copy.distances)
        && same(&lent.times, &copy.times)
        && lent.visits == copy.visits
        && lent.lengths == copy.lengths
        && lent.van_ids == copy.van_ids
        && same(&lent.prices, &copy.prices)
        && lent.fleet.ids == copy.fleet.ids
        && lent.fleet.depots == copy.fleet.depots
        && lent.fleet.capacities == copy.fleet.capacities
        && lent.fleet.flags == copy.fleet.flags
        && lent.fleet.numbers().iter().zip(copy.fleet.numbers()).all(|(ours, theirs)| same(ours, theirs))
}
