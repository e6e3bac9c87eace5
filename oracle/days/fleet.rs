//! What cross-depot reads beyond a day of one van: a fleet at several depots, the van of each list, the prices that the lists
//! are lent at.
use super::day::{Day, Van};
use super::maps::{any_plain, near, plainly};
use super::random::Random;
use super::refusal::{LEAST_COST, MOST};
use super::walk;

/// What a family of fleets fixes; the rest is drawn.
#[derive(Clone, Copy, PartialEq)]
pub enum Crew {
    /// Vans at any depots, lists of any of them.
    Mixed,
    /// Each van its own break and limits.
    Rules,
    /// Ids that several vans have, and ids that none has.
    Ids,
    /// Prices that aren't the lists' own.
    Prices,
    /// Lists over their van's capacity.
    Over,
    /// 15 or 16 vans.
    Many,
    /// No van at all, or vans at one depot only.
    Few,
}

/// A van with no limit and no break.
pub fn van(id: u32, depot: u64, cost_per_distance: f64, fixed_cost: f64) -> Van {
    Van {
        id,
        depot,
        capacity: 2_000_000_000,
        cost_per_distance,
        fixed_cost,
        flags: 0,
        max_distance: 0.0,
        max_duration: 0.0,
        earliest: 0.0,
        latest: 0.0,
        duration: 0.0,
    }
}

/// The van of a list: the first with its id, and else the first.
pub fn driver(day: &Day, list: usize) -> usize {
    let id = day.van_ids.get(list).copied();
    day.vans.iter().position(|van| Some(van.id) == id).unwrap_or(0)
}

/// The vans, and the ids that the lists have.
pub fn man(day: &mut Day, crew: Crew, random: &mut Random) {
    let depots = day.depots() as u64;
    let count = match crew {
        Crew::Many => random.between(15, 16),
        _ => random.between(2, 6),
    };
    let one = random.below(depots);
    day.vans.clear();
    for number in 0..count as u32 {
        let id = if crew == Crew::Ids { random.pick(&[0, 1, 2, 7, u32::MAX]) } else { 3 + number };
        let depot = if crew == Crew::Few { one } else { random.below(depots) };
        day.vans.push(van(id, depot, distance_cost(random), fixed_cost(random)));
    }
    let unknown = match crew {
        Crew::Ids => 3,
        _ => 12,
    };
    for list in 0..day.lists.len() {
        let mut own = random.index(count);
        if list > 0 && day.vans[own].depot == day.vans[driver(day, list - 1)].depot {
            own = random.index(count); // so that most lists have one beside them that moves may be made with
        }
        let own = day.vans[own].id;
        day.van_ids.push(if random.one_in(unknown) { random.pick(&[5, 1_000, u32::MAX - 1]) } else { own });
    }
}

fn distance_cost(random: &mut Random) -> f64 {
    match random.below(10) {
        0 => 0.0,
        1 => LEAST_COST,
        2 => any_plain(random).max(LEAST_COST),
        3 | 4 => random.unit() + 0.1,
        5 => random.pick(&[2.0, 3.0, 0.5]),
        _ => 1.0,
    }
}

fn fixed_cost(random: &mut Random) -> f64 {
    match random.below(10) {
        0 => random.pick(&[MOST, f64::from_bits(1), LEAST_COST]),
        1 => any_plain(random),
        2 | 3 => random.below(100) as f64,
        4 | 5 => random.unit() * 100.0,
        _ => 0.0,
    }
}

/// Capacities about the loads of each van's lists.
pub fn load(day: &mut Day, crew: Crew, random: &mut Random) {
    let loads: Vec<i64> = day.lists.iter().map(|list| list.iter().map(|visit| i64::from(day.demand[usize::from(*visit)])).sum()).collect();
    let all: i64 = loads.iter().sum();
    for van in 0..day.vans.len() {
        let own = (0..loads.len()).filter(|list| driver(day, *list) == van).map(|list| loads[list]).max().unwrap_or(0);
        let about = match crew {
            Crew::Over => random.pick(&[own - 1, own - 1, own / 2, own, all]),
            _ => random.pick(&[own, own + 1, own + 3, own + 10, 2 * own, all, all, 2_000_000_000, own - 1, 0]),
        };
        day.vans[van].capacity = about.clamp(0, 2_000_000_000) as i32;
    }
}

/// The price of each list: its own, or another.
pub fn price(day: &mut Day, crew: Crew, random: &mut Random) {
    for list in 0..day.lists.len() {
        let (van, visits) = (&day.vans[driver(day, list)], &day.lists[list]);
        let own = match walk::totals(day, van, visits) {
            _ if visits.is_empty() => 0.0,
            Some(totals) => plainly(totals.distance + totals.lateness_cost),
            None => plainly(walk::distance(day, van, visits)),
        };
        let other = crew == Crew::Prices || random.one_in(8);
        day.prices.push(if other { another(own, random) } else { own });
    }
}

fn another(own: f64, random: &mut Random) -> f64 {
    match random.below(8) {
        0 => 0.0,
        1 => plainly(own * random.unit()),
        2 | 3 => plainly(own * (1.0 + 3.0 * random.unit())),
        4 => near(own, random),
        5 => MOST,
        6 => any_plain(random),
        _ => plainly(own + random.below(50) as f64),
    }
}
