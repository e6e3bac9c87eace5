//! What a list comes to, and whether it passes: windows, break and limits. Capacity is not tested.
use crate::library::{planner_route_distance, planner_route_eval, planner_route_feasible, planner_schedule, planner_table};
use crate::{Day, Lists, Refusal, Vehicle};

/// What a list comes to.
#[derive(Clone, Copy, Debug, PartialEq, Default)]
pub struct RouteEval {
    /// From depot to depot.
    pub distance: f64,
    /// Return to the depot, on the clock that starts at 0.
    pub duration: f64,
    /// Time late, added up over the soft windows.
    pub lateness: f64,
    /// What that costs.
    pub lateness_cost: f64,
}

/// The clock of a list with the van's break.
#[derive(Clone, Copy, Debug, PartialEq, Default)]
pub struct Scheduled {
    /// What the list comes to.
    pub eval: RouteEval,
    /// The position of the visit before whose service the break is taken, from 0, and its start; none where it is left out.
    pub rest: Option<(usize, f64)>,
}

/// What is worked out of day and van before the first move.
#[derive(Clone, Copy, Debug, PartialEq, Default)]
pub struct Table {
    /// The largest distance.
    pub scale: f64,
    /// The least gain that counts, 1e-12 times the scale.
    pub floor: f64,
    /// Whether each distance equals its mirror.
    pub symmetric: bool,
    /// The van's fixed cost in distance.
    pub fixed_cost_in_distance: f64,
    /// The number of depots.
    pub depots: usize,
}

/// The distance from the van's depot through the visits and back, 0 for an empty list. Windows and limits don't matter.
pub fn route_distance(lists: Lists<'_>, list: usize, day: &Day<'_>, vehicle: &Vehicle) -> Result<f64, Refusal> {
    let mut distance = 0.0;
    Refusal::read(planner_route_distance(day, *vehicle, lists.visits, lists.lengths, list, &mut distance))?;
    Ok(distance)
}

/// Whether the list keeps every hard window, the van's limits and its break.
pub fn route_feasible(lists: Lists<'_>, list: usize, day: &Day<'_>, vehicle: &Vehicle) -> Result<bool, Refusal> {
    let mut passes = 0;
    Refusal::read(planner_route_feasible(day, *vehicle, lists.visits, lists.lengths, list, &mut passes))?;
    Ok(passes == 1)
}

/// What the list comes to, if it passes as [`route_feasible`] has it.
pub fn route_eval(lists: Lists<'_>, list: usize, day: &Day<'_>, vehicle: &Vehicle) -> Result<Option<RouteEval>, Refusal> {
    let mut passes = 0;
    let mut eval = RouteEval::default();
    let RouteEval { distance, duration, lateness, lateness_cost } = &mut eval;
    let Lists { visits, lengths } = lists;
    let answer = planner_route_eval(day, *vehicle, visits, lengths, list, &mut passes, distance, duration, lateness, lateness_cost);
    Refusal::read(answer)?;
    Ok((passes == 1).then_some(eval))
}

/// The clock of the list with the van's break, if the hard windows can be kept with it. The van's limits are not applied; for a
/// van without a break it is the clock with no break to take.
pub fn schedule(lists: Lists<'_>, list: usize, day: &Day<'_>, vehicle: &Vehicle) -> Result<Option<Scheduled>, Refusal> {
    let (mut found, mut taken, mut position, mut start) = (0, 0, 0, 0.0);
    let mut eval = RouteEval::default();
    let RouteEval { distance, duration, lateness, lateness_cost } = &mut eval;
    let answer = planner_schedule(
        day,
        *vehicle,
        lists.visits,
        lists.lengths,
        list,
        &mut found,
        distance,
        duration,
        lateness,
        lateness_cost,
        &mut taken,
        &mut position,
        &mut start,
    );
    Refusal::read(answer)?;
    let rest = (taken == 1).then_some((position, start));
    Ok((found == 1).then_some(Scheduled { eval, rest }))
}

/// What is worked out of day and van before the first move. No list plays a part: refusals 1 to 7.
pub fn table_of(day: &Day<'_>, vehicle: &Vehicle) -> Result<Table, Refusal> {
    let mut table = Table::default();
    let mut symmetric = 0;
    let Table { scale, floor, fixed_cost_in_distance, depots, .. } = &mut table;
    Refusal::read(planner_table(day, *vehicle, scale, floor, &mut symmetric, fixed_cost_in_distance, depots))?;
    Ok(Table { symmetric: symmetric == 1, ..table })
}
