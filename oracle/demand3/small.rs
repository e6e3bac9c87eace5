//! Small days under demand 3's premises. A day depends on seed and number alone.
use crate::days::day::{Day, Run, Van};
use crate::days::families::unread;
use crate::days::maps::{any_plain, near, plainly, table, Map};
use crate::days::random::Random;
use crate::days::refusal::LEAST_COST;
use crate::days::walk;
use crate::instance::{Instance, FARTHEST};
use crate::moves::Engine;

/// The steps in which a day's times are drawn.
#[derive(Clone, Copy, PartialEq)]
enum Step {
    Whole,
    Eighth,
    /// Any f64: sums round.
    Any,
}

impl Step {
    fn rounded(self, time: f64) -> f64 {
        match self {
            Step::Whole => plainly(time.round()),
            Step::Eighth => plainly((time * 8.0).round() / 8.0),
            Step::Any => plainly(time),
        }
    }

    /// The time itself, a step below or a step above.
    fn near(self, time: f64, random: &mut Random) -> f64 {
        match self {
            Step::Whole => plainly(time + random.pick(&[-1.0, 0.0, 1.0])),
            Step::Eighth => plainly(time + random.pick(&[-0.125, 0.0, 0.125])),
            Step::Any => near(time, random),
        }
    }
}

/// A day of that seed and number, with the runs of these engines.
pub fn day(seed: u64, number: u64, engines: &[(&str, Engine)]) -> Result<Day, String> {
    let mut random = Random::of(seed, 1000, number);
    let random = &mut random;
    let step = random.pick(&[Step::Whole, Step::Whole, Step::Eighth, Step::Any]);
    let flagged = random.pick(&[0, 1, 1, 1, 1, 2, 3]);
    let (offices, spare) = (random.pick(&[0, 1, 2, 3, 4, 4, 5, 5, 6, 6, 6, 7, 7, 7, 7]), random.pick(&[0, 0, 0, 1]));
    let mut day = places(flagged, offices + spare, step, random);
    lists(&mut day, offices, random);
    let van = van(&day, random);
    let depot = van.depot as usize;
    let own = depot * day.locations() + depot;
    day.distances[own] = 0.0;
    day.vans.push(van);
    windows(&mut day, step, random);
    capacity(&mut day, random);
    if random.one_in(4) {
        rest(&mut day, step, random);
    }
    if random.one_in(4) {
        limits(&mut day, step, random);
    }
    if random.one_in(3) {
        unread(&mut day, random);
    }
    runs(&mut day, engines)?;
    Ok(day)
}

fn distances(locations: usize, random: &mut Random) -> Vec<f64> {
    let map = random.pick(&[Map::WholeOneWay, Map::WholeOneWay, Map::Whole, Map::Line, Map::Grid, Map::Ties, Map::Demand3, Map::Zero]);
    let own = random.one_in(3);
    if map != Map::Zero || random.one_in(8) {
        return table(map, locations, own, random);
    }
    let few = random.pick(&[[0.0, 1.0], [0.0, FARTHEST], [1.0, 3.0], [FARTHEST - 1.0, FARTHEST]]);
    (0..locations * locations).map(|_| random.pick(&few)).collect()
}

/// The columns but the windows, and the tables.
fn places(flagged: usize, offices: usize, step: Step, random: &mut Random) -> Day {
    let locations = flagged.max(1) + offices;
    let mut day = Day { distances: distances(locations, random), ..Day::default() };
    if step != Step::Whole || random.one_in(3) {
        let scale = random.pick(&[1.0, 20.0, 100.0, 1000.0]);
        day.times = (0..locations * locations).map(|_| step.rounded(random.unit() * scale)).collect();
    }
    let longest = random.pick(&[0.0, 0.0, 4.0, 30.0]);
    for place in 0..locations {
        day.flags.push(u8::from(place < flagged));
        day.demand.push(random.pick(&[0, 1, 1, 2, 3, 5, 1_000_000]));
        day.service.push(step.rounded(random.unit() * longest));
        if random.one_in(8) {
            day.flags[place] |= 4; // a penalty with no window counts for nothing
        }
    }
    (day.ready, day.due, day.penalty) = (vec![0.0; locations], vec![0.0; locations], vec![1.0; locations]);
    day
}

/// So many offices in any order, dealt out; a list may stay empty.
fn lists(day: &mut Day, offices: usize, random: &mut Random) {
    let count = random.pick(&[1, 1, 1, 1, 2, 2, 2, 2, 3, 3, 4, 5, if offices == 0 { 0 } else { 1 }]);
    let mut visits: Vec<u16> = (day.depots()..day.locations()).map(|place| place as u16).collect();
    random.shuffle(&mut visits);
    visits.truncate(offices);
    let uneven = random.one_in(3);
    day.lists = vec![Vec::new(); count];
    for visit in visits {
        let most = if uneven { count.min(2) } else { count };
        day.lists[random.index(most)].push(visit);
    }
    random.shuffle(&mut day.lists);
    (day.van_ids, day.prices) = (vec![0; count], vec![0.0; count]);
}

/// A fixed cost that is worth a whole distance.
fn costs(random: &mut Random) -> (f64, f64) {
    let worth = random.pick(&[0.0, 0.0, 1.0, 7.0, 50.0, 300.0, 1_000_000.0, FARTHEST]);
    let cost = random.pick(&[0.0, 1.0, 1.0, 0.5, 3.0, 0.1, LEAST_COST, 65_536.0]);
    if cost == 0.0 {
        return (cost, any_plain(random));
    }
    let fixed = worth * cost;
    if fixed / cost == worth { (cost, fixed) } else { (1.0, worth) }
}

fn van(day: &Day, random: &mut Random) -> Van {
    let (cost_per_distance, fixed_cost) = costs(random);
    Van {
        id: random.pick(&[0, 1, 7, u32::MAX]),
        depot: random.below(day.depots() as u64),
        capacity: 2_000_000_000,
        cost_per_distance,
        fixed_cost,
        flags: 0,
        max_distance: 0.0,
        max_duration: 0.0,
        earliest: 0.0,
        latest: 0.0,
        duration: 0.0,
    }
}

/// Hard windows, in half of the days, about the arrival in the lists lent or in others.
fn windows(day: &mut Day, step: Step, random: &mut Random) {
    if random.one_in(2) {
        return;
    }
    let (closes, share) = (random.pick(&[0.5, 1.0, 2.0]), random.pick(&[1, 2, 4]));
    for list in day.lists.clone() {
        let arrivals = walk::arrivals(day, &day.vans[0], &list);
        let home = arrivals[arrivals.len() - 1];
        for (visit, arrival) in list.iter().zip(&arrivals) {
            if random.one_in(share) {
                let about = if random.one_in(2) { *arrival } else { step.rounded(home * random.unit() * closes) };
                window(day, usize::from(*visit), about, home, step, random);
            }
        }
    }
    for place in 0..day.depots() {
        if random.one_in(6) {
            window(day, place, 0.0, 9.0, step, random);
        }
    }
}

fn window(day: &mut Day, place: usize, about: f64, scale: f64, step: Step, random: &mut Random) {
    let later = step.rounded(about + random.unit() * scale);
    let (ready, due) = match random.below(4) {
        0 => (0.0, step.near(about, random)),
        1 => (step.near(about, random), later),
        2 => (about, about),
        _ => (step.rounded(about * random.unit()), later),
    };
    day.flags[place] = day.flags[place] & 1 | 2;
    (day.ready[place], day.due[place]) = (ready, if due < ready { ready } else { due });
}

/// About the loads: so that lists are within it, at it or over it, or some visits fit no more.
fn capacity(day: &mut Day, random: &mut Random) {
    let load = |list: &Vec<u16>| list.iter().map(|visit| i64::from(day.demand[usize::from(*visit)])).sum::<i64>();
    let loads: Vec<i64> = day.lists.iter().map(load).collect();
    let (most, all) = (loads.iter().copied().max().unwrap_or(0), loads.iter().sum::<i64>());
    let one = if loads.is_empty() { 0 } else { random.pick(&loads) };
    let about = random.pick(&[most, most + 1, most + 3, most - 1, one, one + 2, all, 2_000_000_000, 2_000_000_000, 0]);
    day.vans[0].capacity = about.clamp(0, 2_000_000_000) as i32;
}

/// The times of a list of the day, the return last.
fn some_arrivals(day: &Day, random: &mut Random) -> Vec<f64> {
    match day.lists.len() {
        0 => vec![10.0],
        count => walk::arrivals(day, &day.vans[0], &day.lists[random.index(count)]),
    }
}

/// A break about the arrivals of a list, or anywhere before its return.
fn rest(day: &mut Day, step: Step, random: &mut Random) {
    let times = some_arrivals(day, random);
    let home = times[times.len() - 1];
    let moment = if random.one_in(2) { random.pick(&times) } else { step.rounded(home * random.unit()) };
    let earliest = step.near(moment, random);
    let latest = match random.below(3) {
        0 => earliest,
        1 => step.near(random.pick(&times), random),
        _ => step.rounded(earliest + home * random.unit()),
    };
    let duration = step.rounded(random.unit() * random.pick(&[0.0, 5.0, 40.0]));
    let van = &mut day.vans[0];
    van.flags |= 4;
    (van.earliest, van.latest, van.duration) = (earliest, if latest < earliest { earliest } else { latest }, duration);
}

/// Limits about what a list comes to.
fn limits(day: &mut Day, step: Step, random: &mut Random) {
    let list = if day.lists.is_empty() { Vec::new() } else { day.lists[random.index(day.lists.len())].clone() };
    let van = &day.vans[0];
    let times = walk::arrivals(day, van, &list);
    let (distance, duration) = (walk::distance(day, van, &list), times[times.len() - 1] + van.duration * f64::from(van.flags / 4));
    let share = random.pick(&[1.0, 1.0, 0.8, 1.5]);
    let (far, long) = (Step::Whole.near((distance * share).round(), random), step.near(step.rounded(duration * share), random));
    let van = &mut day.vans[0];
    van.flags |= random.pick(&[1, 2, 3]);
    (van.max_distance, van.max_duration) = (far, long);
}

/// Each engine, within a list on every one, at limits 0 to 3, the starting sum, and the most that a u32 holds.
fn runs(day: &mut Day, engines: &[(&str, Engine)]) -> Result<(), String> {
    let mut runs = Vec::new();
    let instance = Instance::of(day)?;
    for (name, engine) in engines {
        for list in 0..if engine.within_a_list() { day.lists.len() } else { 1 } {
            let sum = match engine.within_a_list() {
                true => instance.sum(&day.lists[list..=list]),
                false => instance.sum(&day.lists),
            };
            for limit in [0, 1, 2, 3, sum as i64, i64::from(u32::MAX)] {
                runs.push(Run { engine: name.to_string(), limit, list: list as u64 });
            }
        }
    }
    day.runs = runs;
    Ok(())
}
