//! The entries of libplanner_c.a as safe functions over slices: all of this crate's `unsafe`, and why it is sound.
//!
//! 1. Every pointer goes with its count, and both are one slice's: readable, aligned and, from a `&mut`, touched by nobody else
//!    for the length of the call. A single answer is a `&mut` itself. Rust's borrowing keeps what is written apart from the rest.
//! 2. No entry asks anything of what it is lent: that it stays inside the tables with any numbers, lists and lengths is proved
//!    of the library (docs/CLAIMS.md). It keeps no pointer, has no state, calls nothing back and doesn't unwind.
//! 3. Names, order and types are those of include/planner.h, and [`Vehicle`] is its `struct planner_van`: tests/header.rs.
use crate::{Day, Fleet, Vehicle};

/// An entry over the day, then the van or the fleet, the tables that it writes, those that it reads, and its other parameters.
macro_rules! entry {
    (
        $name:ident,
        $(van($van:ident: $vehicle:ty),)?
        $(fleet($fleet:ident: $columns:ty { $($column:ident: $entry:ty),* }),)?
        writes($($written:ident: $into:ty),*),
        reads($($read:ident: $from:ty),*),
        $($other:ident: $kind:ty),*
    ) => {
        #[allow(clippy::too_many_arguments)]
        pub(crate) fn $name(
            day: &Day<'_>,
            $($van: $vehicle,)?
            $($fleet: &$columns,)?
            $($written: &mut [$into],)*
            $($read: &[$from],)*
            $($other: $kind),*
        ) -> u8 {
            extern "C" {
                fn $name(
                    l: usize,
                    flags: *const u8, _: usize,
                    demand: *const i32, _: usize,
                    service: *const f64, _: usize,
                    ready: *const f64, _: usize,
                    due: *const f64, _: usize,
                    penalty: *const f64, _: usize,
                    distances: *const f64, _: usize,
                    times: *const f64, _: usize,
                    $($van: $vehicle,)?
                    $($($column: *const $entry, _: usize,)*)?
                    $($written: *mut $into, _: usize,)*
                    $($read: *const $from, _: usize,)*
                    $($other: $kind),*
                ) -> u8;
            }
            // SAFETY: the three points at the head of this file.
            unsafe {
                $name(
                    day.flags.len(),
                    day.flags.as_ptr(), day.flags.len(),
                    day.demand.as_ptr(), day.demand.len(),
                    day.service.as_ptr(), day.service.len(),
                    day.ready.as_ptr(), day.ready.len(),
                    day.due.as_ptr(), day.due.len(),
                    day.penalty.as_ptr(), day.penalty.len(),
                    day.distances.as_ptr(), day.distances.len(),
                    day.times.as_ptr(), day.times.len(),
                    $($van,)?
                    $($($fleet.$column.as_ptr(), $fleet.$column.len(),)*)?
                    $($written.as_mut_ptr(), $written.len(),)*
                    $($read.as_ptr(), $read.len(),)*
                    $($other),*
                )
            }
        }
    };
}

macro_rules! van_entry {
    ($name:ident, $($parameters:tt)*) => {
        entry!($name, van(van: Vehicle), $($parameters)*);
    };
}

macro_rules! fleet_entry {
    ($name:ident, $($parameters:tt)*) => {
        entry!(
            $name,
            fleet(fleet: Fleet<'_> {
                van_ids: u32, depots: usize, capacities: i32, distance_costs: f64, fixed_costs: f64, van_flags: u8,
                max_distances: f64, max_durations: f64, earliest: f64, latest: f64, durations: f64
            }),
            $($parameters)*
        );
    };
}

van_entry!(planner_refusal, writes(), reads(visits: u16, lengths: u16), list: usize);
van_entry!(planner_route_distance, writes(), reads(visits: u16, lengths: u16), list: usize, distance: &mut f64);
van_entry!(planner_route_feasible, writes(), reads(visits: u16, lengths: u16), list: usize, passes: &mut u8);
van_entry!(planner_route_eval, writes(), reads(visits: u16, lengths: u16),
    list: usize, passes: &mut u8, distance: &mut f64, duration: &mut f64, lateness: &mut f64, lateness_cost: &mut f64);
van_entry!(planner_schedule, writes(), reads(visits: u16, lengths: u16),
    list: usize, found: &mut u8, distance: &mut f64, duration: &mut f64, lateness: &mut f64, lateness_cost: &mut f64,
    taken: &mut u8, position: &mut usize, start: &mut f64);
van_entry!(planner_table, writes(), reads(),
    scale: &mut f64, floor: &mut f64, symmetric: &mut u8, fixed: &mut f64, depots: &mut usize);
van_entry!(planner_two_opt_improve, writes(visits: u16), reads(lengths: u16),
    list: usize, limit: u32, settled: &mut u8, moves: &mut u32, distance: &mut f64);
van_entry!(planner_or_opt_improve, writes(visits: u16), reads(lengths: u16),
    list: usize, limit: u32, settled: &mut u8, moves: &mut u32, distance: &mut f64);
van_entry!(planner_three_opt_improve, writes(visits: u16), reads(lengths: u16),
    list: usize, limit: u32, settled: &mut u8, moves: &mut u32, distance: &mut f64);
van_entry!(planner_relocate_improve, writes(visits: u16, lengths: u16), reads(),
    limit: u32, pruning: u8, settled: &mut u8, moves: &mut u32, remaining: &mut usize);
van_entry!(planner_exchange_improve, writes(visits: u16, lengths: u16), reads(),
    limit: u32, settled: &mut u8, moves: &mut u32, remaining: &mut usize);
van_entry!(planner_refusal_of_lists, writes(), reads(visits: u16, lengths: u16),);
fleet_entry!(planner_refusal_of_fleet, writes(), reads(visits: u16, lengths: u16, ids: u32, prices: f64),);
fleet_entry!(planner_cross_depot_improve, writes(visits: u16, lengths: u16, ids: u32), reads(prices: f64),
    limit: u32, settled: &mut u8, moves: &mut u32, remaining: &mut usize);
