//! Days to be refused: a good day with one damage or several, of each of refusals 1 to 12. Some damages do no harm, so
//! that what must not be refused is tried too; the number expected is refusal.rs's, not the damage's.
use super::day::{Change, Day, Van, COLUMNS, FLEET_COLUMNS};
use super::families;
use super::random::Random;
use super::refusal::{asked, Asked, LEAST_COST, MOST};

/// No plain numbers.
const ODD: [f64; 9] = [
    f64::NAN,
    f64::INFINITY,
    f64::NEG_INFINITY,
    -0.0,
    -1.0,
    -1099511627776.0,
    1099511627776.0001220703125,
    f64::MAX,
    -5e-324,
];

/// A number to put in a plain one's place: mostly not plain, at times at the very limit.
fn number(random: &mut Random) -> f64 {
    match random.below(12) {
        0 => MOST,
        1 => f64::from_bits(random.next()),
        2 => -f64::NAN,
        _ => random.pick(&ODD),
    }
}

fn put(column: &mut [f64], random: &mut Random) {
    if !column.is_empty() {
        let place = random.index(column.len());
        column[place] = number(random);
    }
}

/// Damage toward that refusal.
fn damage(day: &mut Day, refusal: u64, random: &mut Random) {
    match refusal {
        1 => size(day, random),
        2 => length(day, random),
        3 => table(day, random),
        4 => place(day, random),
        5 => window(day, random),
        6 => depot(day, random),
        7 => van(day, random),
        8 => lists(day, random),
        9 => visit(day, random),
        10 => twice(day, random),
        11 => fleet(day, random),
        _ => put(&mut day.prices, random),
    }
}

/// The number of locations: said wrongly, or none or 65 there.
fn size(day: &mut Day, random: &mut Random) {
    let said = [0, 65, 66, 128, 255, 256, 1 << 16, 1 << 32, 1 << 63, u64::MAX, u64::MAX - 63, (1 << 32) + day.locations() as u64];
    if random.one_in(8) {
        let keep = Day { vans: day.vans.clone(), runs: day.runs.clone(), ..Day::default() };
        *day = keep;
    } else if random.one_in(8) {
        grow(day, 65, random);
    } else {
        day.changes.push(Change::Size(random.pick(&said)));
    }
}

/// As many locations as that, the new ones with no columns of note and at no distance.
fn grow(day: &mut Day, locations: usize, random: &mut Random) {
    day.flags.resize(locations, 0);
    day.demand.resize(locations, 1);
    for column in [&mut day.service, &mut day.ready, &mut day.due, &mut day.penalty] {
        column.resize(locations, 0.0);
    }
    day.distances = (0..locations * locations).map(|_| random.below(9) as f64).collect();
    day.times.clear();
}

fn length(day: &mut Day, random: &mut Random) {
    let locations = day.locations() as u64;
    if random.one_in(6) {
        day.changes.push(Change::Size(random.pick(&[locations + 1, locations.saturating_sub(1), 1, 64])));
        return;
    }
    let entries = random.pick(&[1, 1, 1, -1, -1, 2, -(locations as i64), locations as i64, 5000, 0]);
    day.changes.push(Change::Trim(random.index(8), entries));
}

fn table(day: &mut Day, random: &mut Random) {
    if day.times.is_empty() || random.one_in(2) {
        put(&mut day.distances, random);
    } else {
        put(&mut day.times, random);
    }
}

fn place(day: &mut Day, random: &mut Random) {
    if day.locations() == 0 {
        return;
    }
    let place = random.index(day.locations());
    match random.below(5) {
        0 => day.demand[place] = random.pick(&[-1, 1_000_001, i32::MIN, i32::MAX, 1_000_000, 0]),
        1 => day.service[place] = number(random),
        2 => {
            day.penalty[place] = number(random);
            day.flags[place] |= if random.one_in(4) { 0 } else { 4 };
        }
        3 => day.flags[place] |= 1 << random.between(3, 7),
        _ => day.flags[place] ^= 1,
    }
}

fn window(day: &mut Day, random: &mut Random) {
    if day.locations() == 0 {
        return;
    }
    let place = random.index(day.locations());
    if !random.one_in(4) {
        day.flags[place] |= 2;
    }
    let due = random.pick(&[0.0, 10.0, MOST, f64::from_bits(1)]);
    (day.ready[place], day.due[place]) = match random.below(5) {
        0 => (number(random), due),
        1 => (0.0, number(random)),
        2 => (due.next_up(), due),
        3 => (due, due),
        _ => (due, 5.0),
    };
}

/// The first van, which most runs are of, or any.
fn some_van<'a>(day: &'a mut Day, random: &mut Random) -> Option<&'a mut Van> {
    let van = if random.one_in(2) { 0 } else { random.index(day.vans.len().max(1)) };
    day.vans.get_mut(van)
}

fn depot(day: &mut Day, random: &mut Random) {
    let (depots, locations) = (day.depots() as u64, day.locations() as u64);
    if let Some(van) = some_van(day, random) {
        van.depot = random.pick(&[depots, depots, locations, 63, 64, 1 << 32, u64::MAX, (1 << 32) | van.depot]);
    }
}

/// Adds vans up to that many, each like one that is there.
fn more_vans(day: &mut Day, vans: usize, random: &mut Random) {
    while !day.vans.is_empty() && day.vans.len() < vans {
        let van = day.vans[random.index(day.vans.len())].clone();
        day.vans.push(van);
    }
}

/// The columns of the fleet, and those that have one entry a list.
fn fleet(day: &mut Day, random: &mut Random) {
    let entries = random.pick(&[1, 1, -1, -1, 2, -16, 100, 0]);
    match random.below(8) {
        0 | 1 => more_vans(day, random.pick(&[15, 16, 16, 17, 17, 18, 40]), random),
        2 | 3 => day.changes.push(Change::Trim(random.between(10, 11), entries)),
        4 => (10..=11).for_each(|column| day.changes.push(Change::Trim(column, entries))),
        5 => (FLEET_COLUMNS..COLUMNS.len()).for_each(|column| day.changes.push(Change::Trim(column, entries))),
        6 if day.runs.iter().all(|run| matches!(asked(run), Asked::Fleet)) => day.vans.clear(),
        _ => day.changes.push(Change::Trim(random.between(FLEET_COLUMNS, COLUMNS.len() - 1), entries)),
    }
}

fn van(day: &mut Day, random: &mut Random) {
    let flag = u8::from(!random.one_in(4));
    let Some(van) = some_van(day, random) else {
        return;
    };
    match random.below(10) {
        0 => van.capacity = random.pick(&[-1, 2_000_000_001, i32::MIN, i32::MAX, 2_000_000_000, 0]),
        1 => van.cost_per_distance = number(random),
        2 => van.cost_per_distance = random.pick(&[LEAST_COST.next_down(), LEAST_COST, f64::from_bits(1), 1e-7, 0.0]),
        3 => van.fixed_cost = number(random),
        4 => (van.flags, van.max_distance) = (van.flags | flag, number(random)),
        5 => (van.flags, van.max_duration) = (van.flags | flag << 1, number(random)),
        6 => van.flags |= 1 << random.between(3, 7),
        7 => {
            let later = random.pick(&[0.0, 20.0, MOST, f64::MIN_POSITIVE]);
            (van.earliest, van.latest) = (later.next_up(), if random.one_in(4) { later.next_up() } else { later });
            (van.flags, van.duration) = (van.flags | flag << 2, 1.0);
        }
        _ => {
            (van.earliest, van.latest, van.duration) = (5.0, 10.0, 1.0);
            let bad = number(random);
            match random.below(3) {
                0 => van.earliest = bad,
                1 => van.latest = bad,
                _ => van.duration = bad,
            }
            van.flags |= flag << 2;
        }
    }
}

/// Adds empty lists up to that many.
fn more_lists(day: &mut Day, lists: usize) {
    while day.lists.len() < lists {
        day.lists.push(Vec::new());
        day.van_ids.push(0);
        day.prices.push(0.0);
    }
}

fn lists(day: &mut Day, random: &mut Random) {
    let count = day.lists.len() as u64;
    match random.below(7) {
        0 => more_lists(day, random.pick(&[16, 17, 18, 40])),
        1 => day.changes.push(Change::Trim(8, random.pick(&[1, -1, 63, -64, 0]))),
        2 => day.changes.push(Change::Trim(9, random.pick(&[1, -1, -16, 100]))),
        3 if count > 0 => {
            let entries = random.pick(&[0, 1, 62, 63, 64, 65, 32767, 32768, 65535]);
            day.changes.push(Change::Length(random.index(count as usize), entries));
        }
        4 if count > 0 => {
            let list = random.index(count as usize);
            let entries = random.pick(&[63, 64, 65, 200]);
            while day.lists[list].len() < entries {
                let office = random.below(64) as u16;
                day.lists[list].push(office);
            }
        }
        _ => {
            for run in day.runs.iter_mut().filter(|run| matches!(asked(run), Asked::List(_))) {
                run.list = random.pick(&[count, count, count + 1, 16, 255, 256, 1 << 32, 1 << 63, u64::MAX]);
            }
        }
    }
}

/// A list that isn't empty, if there is one.
fn used(day: &Day, random: &mut Random) -> Option<usize> {
    let used: Vec<usize> = (0..day.lists.len()).filter(|list| !day.lists[*list].is_empty()).collect();
    if used.is_empty() { None } else { Some(random.pick(&used)) }
}

fn visit(day: &mut Day, random: &mut Random) {
    let (locations, depots) = (day.locations() as u16, day.depots() as u16);
    if let Some(list) = used(day, random) {
        let position = random.index(day.lists[list].len());
        let choices = [locations, locations, locations.wrapping_add(1), 0, depots - 1, 64, 255, 256, 32768, 65535];
        day.lists[list][position] = random.pick(&choices);
    }
}

fn twice(day: &mut Day, random: &mut Random) {
    let Some(list) = used(day, random) else {
        return;
    };
    let visit = random.pick(&day.lists[list]);
    let other = random.index(day.lists.len());
    let at = random.index(day.lists[other].len() + 1);
    day.lists[other].insert(at, visit);
}

/// The damaged day with that number: one damage, or up to four.
pub fn day(seed: u64, number: u64, engines: &[&str]) -> Day {
    let mut random = Random::of(seed, 1000, number);
    let mut day = families::day(random.index(families::FAMILIES.len()), seed, number, !random.one_in(20), engines);
    let damages = random.pick(&[1, 1, 1, 2, 3, 4]);
    for _ in 0..damages {
        let refusal = 1 + random.below(12);
        damage(&mut day, refusal, &mut random);
    }
    day
}
