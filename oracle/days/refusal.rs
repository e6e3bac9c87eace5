//! Refusals 1 to 12, written from the table in document 01, in the order of the numbers; cross-depot tests 11 before 6.
use super::day::{Fleet, Lent, Run, Van};

/// 2^40.
pub const MOST: f64 = 1_099_511_627_776.0;
/// 2^-20.
pub const LEAST_COST: f64 = 1.0 / 1_048_576.0;

pub fn plain(number: f64) -> bool {
    number.is_sign_positive() && number.is_finite() && number <= MOST
}

/// What a run reads of the lists.
#[derive(Clone, Copy)]
pub enum Asked {
    /// None of them (`table`).
    Nothing,
    /// The list with this number.
    List(u64),
    /// All of them.
    Lists,
    /// All of them, for a fleet.
    Fleet,
}

/// The runs that answer a refusal's number alone, 0 for none; the reference doesn't know them.
pub const NUMBERS: [&str; 3] = ["refusal", "refusal_of_lists", "refusal_of_fleet"];

pub fn asked(run: &Run) -> Asked {
    match run.engine.as_str() {
        "table" => Asked::Nothing,
        "relocate" | "relocate_np" | "exchange" | "refusal_of_lists" => Asked::Lists,
        "cross" | "refusal_of_fleet" => Asked::Fleet,
        _ => Asked::List(run.list),
    }
}

/// The number of the refusal that a run gets, 0 where it gets none. A run that isn't for a fleet is the first van's.
pub fn refusal(lent: &Lent, vans: &[Van], asked: Asked) -> u8 {
    let day = of_day(lent);
    if day != 0 {
        return day;
    }
    let depots = depots(lent);
    let van = match asked {
        Asked::Fleet => of_fleet(lent, depots),
        _ => of_vans(&vans[..vans.len().min(1)], depots),
    };
    if van != 0 {
        return van;
    }
    match asked {
        Asked::Nothing => 0,
        Asked::Lists => of_lists(lent, depots, None),
        Asked::List(list) => of_lists(lent, depots, Some(list)),
        Asked::Fleet => of_lists_and_prices(lent, depots),
    }
}

/// 6 of every van, then 7 of every van.
fn of_vans(vans: &[Van], depots: u64) -> u8 {
    if vans.iter().any(|van| van.depot >= depots) {
        return 6;
    }
    if vans.iter().any(bad_van) { 7 } else { 0 }
}

fn of_fleet(lent: &Lent, depots: u64) -> u8 {
    let lists = lent.lengths.len();
    if lent.fleet.ids.len() > 16 || !one_length(&lent.fleet) || lent.van_ids.len() != lists || lent.prices.len() != lists {
        return 11;
    }
    of_vans(&lent.fleet.vans(), depots)
}

fn one_length(fleet: &Fleet) -> bool {
    let vans = fleet.ids.len();
    fleet.depots.len() == vans
        && fleet.capacities.len() == vans
        && fleet.flags.len() == vans
        && fleet.numbers().iter().all(|column| column.len() == vans)
}

fn of_lists_and_prices(lent: &Lent, depots: u64) -> u8 {
    match of_lists(lent, depots, None) {
        0 if lent.prices.iter().any(|price| !plain(*price)) => 12,
        number => number,
    }
}

fn of_day(lent: &Lent) -> u8 {
    if lent.locations == 0 || lent.locations > 64 {
        return 1;
    }
    if wrong_length(lent) {
        return 2;
    }
    if !lent.distances.iter().all(|d| plain(*d)) || !lent.times.iter().all(|t| plain(*t)) {
        return 3;
    }
    if (0..lent.flags.len()).any(|place| bad_place(lent, place)) || late_depot(lent) {
        return 4;
    }
    if (0..lent.flags.len()).any(|place| bad_window(lent, place)) {
        return 5;
    }
    0
}

fn wrong_length(lent: &Lent) -> bool {
    let locations = lent.locations as usize;
    let square = locations * locations;
    let columns = [lent.service.len(), lent.ready.len(), lent.due.len(), lent.penalty.len(), lent.flags.len(), lent.demand.len()];
    columns.iter().any(|length| *length != locations)
        || lent.distances.len() != square
        || (lent.times.len() != square && !lent.times.is_empty())
}

fn bad_place(lent: &Lent, place: usize) -> bool {
    let flags = lent.flags[place];
    !(0..=1_000_000).contains(&lent.demand[place])
        || !plain(lent.service[place])
        || (flags & 4 != 0 && !plain(lent.penalty[place]))
        || flags >= 8
}

/// A depot flag after an unflagged location.
fn late_depot(lent: &Lent) -> bool {
    lent.flags.windows(2).any(|pair| pair[0] & 1 == 0 && pair[1] & 1 != 0)
}

fn bad_window(lent: &Lent, place: usize) -> bool {
    let (ready, due) = (lent.ready[place], lent.due[place]);
    lent.flags[place] & 2 != 0 && (!plain(ready) || !plain(due) || ready > due)
}

fn depots(lent: &Lent) -> u64 {
    let leading = lent.flags.iter().take_while(|flags| *flags & 1 != 0).count();
    leading.max(1) as u64
}

fn bad_van(van: &Van) -> bool {
    let cost = van.cost_per_distance;
    let rest = van.flags & 4 != 0;
    !(0..=2_000_000_000).contains(&van.capacity)
        || !plain(cost)
        || (cost != 0.0 && cost < LEAST_COST)
        || !plain(van.fixed_cost)
        || (van.flags & 1 != 0 && !plain(van.max_distance))
        || (van.flags & 2 != 0 && !plain(van.max_duration))
        || (rest && (!plain(van.earliest) || !plain(van.latest) || !plain(van.duration) || van.latest < van.earliest))
        || van.flags >= 8
}

fn of_lists(lent: &Lent, depots: u64, list: Option<u64>) -> u8 {
    let count = lent.lengths.len() as u64;
    let sum: u64 = lent.lengths.iter().map(|length| u64::from(*length)).sum();
    if count > 16 || sum != lent.visits.len() as u64 || lent.lengths.iter().any(|length| *length > 63) {
        return 8;
    }
    if list.is_some_and(|list| list >= count) {
        return 8;
    }
    if lent.visits.iter().any(|visit| u64::from(*visit) >= lent.locations || u64::from(*visit) < depots) {
        return 9;
    }
    let mut seen = std::collections::HashSet::new();
    if lent.visits.iter().any(|visit| !seen.insert(*visit)) {
        return 10;
    }
    0
}
