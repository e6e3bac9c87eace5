//! The days that are timed: offices at random places of a square, from a fixed seed, dealt out to lists. The lists keep what the
//! day asks of them; many of their neighbours don't.
use crate::days::day::{Day, Van};
use crate::days::random::Random;
use crate::days::{fleet, walk};

pub const OFFICES: [usize; 3] = [10, 30, 63];
/// Of a fleet's day; beside them there is room for 60 offices.
const DEPOTS: usize = 4;
const SEED: u64 = 20261116;
const SIDE: f64 = 100.0;
const SERVICE: f64 = 3.5;

#[derive(Clone, Copy, PartialEq)]
enum Windows {
    Open,
    Hard,
    Soft,
}

/// What a day asks beyond the distance.
#[derive(Clone, Copy)]
pub struct Kind {
    pub name: &'static str,
    windows: Windows,
    /// A distance and a duration limit, and times unlike the distances.
    limits: bool,
    rest: bool,
}

const fn kind(name: &'static str, windows: Windows, limits: bool, rest: bool) -> Kind {
    Kind { name, windows, limits, rest }
}

pub const UNCONSTRAINED: Kind = kind("unconstrained", Windows::Open, false, false);
pub const SOFT: Kind = kind("soft windows", Windows::Soft, false, false);
pub const KINDS: [Kind; 5] = [
    UNCONSTRAINED,
    kind("hard windows", Windows::Hard, false, false),
    kind("limits", Windows::Open, true, false),
    kind("break", Windows::Open, false, true),
    SOFT,
];
/// Those of `schedule`, which the Rust has for a van with a break alone.
pub const BREAK_KINDS: [Kind; 3] = [
    kind("break", Windows::Open, false, true),
    kind("break, hard windows", Windows::Hard, false, true),
    kind("break, soft windows", Windows::Soft, false, true),
];

impl Kind {
    pub fn is_soft(&self) -> bool {
        self.windows == Windows::Soft
    }

    pub fn is_hard(&self) -> bool {
        self.windows == Windows::Hard
    }

    /// The day of that many offices, dealt out one by one to that many lists of one van.
    pub fn day(&self, offices: usize, lists: usize) -> Day {
        let mut random = Random::of(SEED, lists as u64, offices as u64);
        let mut day = places(offices, 1, lists, &mut random);
        day.vans = vec![Van { capacity: (offices.div_ceil(lists) + 2) as i32, ..fleet::van(0, 0, 1.0, 20.0) }];
        self.ask(&mut day, &mut random);
        day
    }

    /// The same of a fleet: a van a list, of unlike depots, capacities and costs.
    pub fn fleet_day(&self, offices: usize, lists: usize) -> Day {
        let mut random = Random::of(SEED, lists as u64, offices as u64);
        let depots = DEPOTS.min(lists);
        let mut day = places(offices, depots, lists, &mut random);
        for number in 0..lists {
            let van = fleet::van(number as u32 + 1, (number % depots) as u64, 1.0 + 0.25 * (number % 3) as f64, 10.0 * (number % 4) as f64);
            day.van_ids[number] = van.id;
            day.vans.push(Van { capacity: (offices.div_ceil(lists) + 1 + number % 3) as i32, ..van });
        }
        self.ask(&mut day, &mut random);
        day
    }

    /// Puts in what the day asks of its lists and vans, and the lists' own prices.
    fn ask(&self, day: &mut Day, random: &mut Random) {
        if self.limits {
            day.times = day.distances.iter().map(|distance| distance * (0.7 + 0.6 * random.unit())).collect();
        }
        let longest = each_list(day, |day, van, list| returns(&walk::arrivals(day, van, list))).into_iter().fold(0.0, f64::max);
        let farthest = each_list(day, walk::distance).into_iter().fold(0.0, f64::max);
        for van in &mut day.vans {
            if self.rest {
                (van.flags, van.earliest, van.latest, van.duration) = (4, 0.3 * longest, 0.5 * longest, 0.1 * longest);
            }
            if self.limits {
                (van.flags, van.max_distance, van.max_duration) = (van.flags | 3, 1.001 * farthest, 1.001 * longest);
            }
        }
        if self.windows != Windows::Open {
            self.put_windows(day, random);
        }
        day.prices = each_list(day, |day, van, list| {
            walk::totals(day, van, list).map_or(0.0, |totals| totals.distance + totals.lateness_cost)
        });
    }

    /// Windows about the arrivals of the lists as they are: open a fifth of the list's time at most before and behind. Soft ones
    /// close a tenth earlier, so that many visits are late; with a break they close later by its duration.
    fn put_windows(&self, day: &mut Day, random: &mut Random) {
        let shift = day.vans[0].duration;
        for (list, arrivals) in day.lists.clone().iter().zip(each_list(day, walk::arrivals)) {
            let total = returns(&arrivals);
            let early = if self.is_soft() { 0.1 * total } else { 0.0 };
            for (visit, arrival) in list.iter().map(|visit| usize::from(*visit)).zip(arrivals) {
                day.flags[visit] = if self.is_soft() { 6 } else { 2 };
                day.ready[visit] = f64::max(0.0, arrival - 0.2 * total * random.unit());
                day.due[visit] = f64::max(day.ready[visit], arrival + 0.2 * total * random.unit() + shift - early);
                day.penalty[visit] = 0.25 + random.unit();
            }
        }
    }
}

/// The places, first the depots, and the lists; no van.
fn places(offices: usize, depots: usize, lists: usize, random: &mut Random) -> Day {
    let locations = depots + offices;
    let places: Vec<(f64, f64)> = (0..locations).map(|_| (SIDE * random.unit(), SIDE * random.unit())).collect();
    let distance = |from: usize, to: usize| {
        let (across, along) = (places[from].0 - places[to].0, places[from].1 - places[to].1);
        (across * across + along * along).sqrt()
    };
    Day {
        flags: (0..locations).map(|place| u8::from(place < depots)).collect(),
        demand: (0..locations).map(|place| i32::from(place >= depots)).collect(),
        service: vec![SERVICE; locations],
        ready: vec![0.0; locations],
        due: vec![0.0; locations],
        penalty: vec![0.0; locations],
        distances: (0..locations * locations).map(|entry| distance(entry / locations, entry % locations)).collect(),
        lists: (0..lists).map(|list| (depots + list..locations).step_by(lists).map(|visit| visit as u16).collect()).collect(),
        van_ids: vec![0; lists],
        ..Day::default()
    }
}

/// What is said of each list by its own van.
fn each_list<T>(day: &Day, said: fn(&Day, &Van, &[u16]) -> T) -> Vec<T> {
    (0..day.lists.len()).map(|list| said(day, &day.vans[fleet::driver(day, list)], &day.lists[list])).collect()
}

/// The last of a list's arrivals.
fn returns(arrivals: &[f64]) -> f64 {
    arrivals.last().copied().unwrap_or(0.0)
}
