//! A day under demand 3's premises: sums in whole numbers, and whether a list passes, written from document 01.
use crate::days::day::{Day, Lent, Van};
use crate::days::refusal::{asked, refusal};
use crate::days::walk;

/// Lists of visits, each under its number.
pub type Lists = Vec<Vec<u16>>;

/// The largest distance of demand 3.
pub const FARTHEST: f64 = 16_777_216.0;

/// Demand 3: a whole distance up to 16,777,216.
fn whole(number: f64) -> Option<u64> {
    let within = (0.0..=FARTHEST).contains(&number) && number.fract() == 0.0;
    within.then_some(number as u64)
}

/// 01, module 4: 0 when the cost per distance is 0.
fn fixed_cost_in_distance(van: &Van) -> f64 {
    if van.cost_per_distance > 0.0 {
        van.fixed_cost / van.cost_per_distance
    } else {
        0.0
    }
}

pub struct Instance<'a> {
    pub day: &'a Day,
    van: &'a Van,
    distances: Vec<u64>,
    fixed: u64,
    clock: Option<Clock>,
}

impl<'a> Instance<'a> {
    /// The day in whole numbers, or which premise it lacks.
    pub fn of(day: &'a Day) -> Result<Instance<'a>, String> {
        let van = day.vans.first().ok_or("no van")?;
        let lent = Lent::of(day);
        if let Some(run) = day.runs.iter().find(|run| refusal(&lent, &day.vans, asked(run)) != 0) {
            return Err(format!("{} is refused", run.engine));
        }
        let distances: Option<Vec<u64>> = day.distances.iter().map(|distance| whole(*distance)).collect();
        let distances = distances.ok_or("a distance isn't whole or above 16,777,216")?;
        if day.distance(van.depot as usize, van.depot as usize) != 0.0 {
            return Err("the van's depot lies at a distance from itself".to_string());
        }
        let fixed = whole(fixed_cost_in_distance(van)).ok_or("the fixed cost isn't worth a whole distance")?;
        if day.flags.iter().any(|flags| flags & 6 == 6) {
            return Err("a window is soft".to_string());
        }
        Ok(Instance { day, van, distances, fixed, clock: Clock::of(day, van) })
    }

    fn distance_between(&self, from: u16, to: u16) -> u64 {
        self.distances[usize::from(from) * self.day.locations() + usize::from(to)]
    }

    /// From the van's depot to the first visit, from visit to visit, and from the last to the depot.
    pub fn distance(&self, list: &[u16]) -> u64 {
        let depot = self.van.depot as u16;
        let mut at = depot;
        let mut distance = 0;
        for &visit in list {
            distance += self.distance_between(at, visit);
            at = visit;
        }
        distance + self.distance_between(at, depot)
    }

    /// The sum of demand 3: the distance of all non-empty lists plus the fixed cost in distance for each.
    pub fn sum(&self, lists: &[Vec<u16>]) -> u64 {
        lists.iter().filter(|list| !list.is_empty()).map(|list| self.distance(list) + self.fixed).sum()
    }

    /// A list's load: its visits' demands added up.
    pub fn load(&self, list: &[u16]) -> i64 {
        list.iter().map(|visit| i64::from(self.day.demand[usize::from(*visit)])).sum()
    }

    pub fn within_capacity(&self, list: &[u16]) -> bool {
        self.load(list) <= i64::from(self.van.capacity)
    }

    /// Whether the list passes: in whole numbers where the day has a clock in them.
    pub fn passes(&self, list: &[u16]) -> bool {
        match &self.clock {
            Some(clock) => clock.allows(self.distance(list), list),
            None => self.passes_rounded(list),
        }
    }

    /// The same in f64 with its labels, as days/walk.rs reads document 01.
    pub fn passes_rounded(&self, list: &[u16]) -> bool {
        walk::evaluated(self.day, self.van, list).is_some()
    }
}

/// The van's clock in eighths, for days whose times are all multiples of an eighth: every sum is then exact, so that each
/// place of the break can be tried by itself and the earliest return counts.
struct Clock {
    depot: usize,
    side: usize,
    travel: Vec<u64>,
    service: Vec<u64>,
    /// Ready and due, where there is a window.
    windows: Vec<Option<(u64, u64)>>,
    rest: Option<Rest>,
    max_distance: Option<u64>,
    max_duration: Option<u64>,
}

struct Rest {
    earliest: u64,
    latest: u64,
    duration: u64,
}

fn eighths(number: f64) -> Option<u64> {
    let count = number * 8.0;
    (count.fract() == 0.0).then_some(count as u64)
}

/// The number in eighths where its flag is set; none at all where it isn't a multiple.
fn flagged(flag: bool, number: f64) -> Option<Option<u64>> {
    if flag { eighths(number).map(Some) } else { Some(None) }
}

impl Clock {
    fn of(day: &Day, van: &Van) -> Option<Clock> {
        let table = if day.times.is_empty() { &day.distances } else { &day.times };
        let window = |place: usize| match day.flags[place] & 2 {
            0 => Some(None),
            _ => Some(Some((eighths(day.ready[place])?, eighths(day.due[place])?))),
        };
        let rest = match van.flags & 4 {
            0 => None,
            _ => Some(Rest { earliest: eighths(van.earliest)?, latest: eighths(van.latest)?, duration: eighths(van.duration)? }),
        };
        Some(Clock {
            depot: van.depot as usize,
            side: day.locations(),
            travel: table.iter().map(|time| eighths(*time)).collect::<Option<_>>()?,
            service: day.service.iter().map(|time| eighths(*time)).collect::<Option<_>>()?,
            windows: (0..day.locations()).map(window).collect::<Option<_>>()?,
            rest,
            max_distance: flagged(van.flags & 1 != 0, van.max_distance)?,
            max_duration: flagged(van.flags & 2 != 0, van.max_duration)?,
        })
    }

    /// Whether windows, break and limits allow the list, whose distance is given.
    fn allows(&self, distance: u64, list: &[u16]) -> bool {
        let Some(duration) = self.duration(list) else {
            return false;
        };
        self.max_distance.is_none_or(|most| 8 * distance <= most) && self.max_duration.is_none_or(|most| duration <= most)
    }

    /// The break is left out exactly when the van is back by earliest without it; else it is taken at the best stop.
    fn duration(&self, list: &[u16]) -> Option<u64> {
        let without = self.back(list, usize::MAX);
        let Some(rest) = &self.rest else {
            return without;
        };
        let left_out = without.filter(|time| *time <= rest.earliest);
        left_out.or_else(|| (0..list.len()).filter_map(|stop| self.back(list, stop)).min())
    }

    /// When the van is back that takes its break at that stop; none where it is late or can't rest there.
    fn back(&self, list: &[u16], rest_at: usize) -> Option<u64> {
        let (mut at, mut time) = (self.depot, 0);
        for (stop, place) in list.iter().map(|visit| usize::from(*visit)).enumerate() {
            time += self.travel[at * self.side + place];
            if let Some(rest) = self.rest.as_ref().filter(|_| stop == rest_at) {
                let start = time.max(rest.earliest);
                if start > rest.latest {
                    return None;
                }
                time = start + rest.duration;
            }
            if let Some((ready, due)) = self.windows[place] {
                if time > due {
                    return None;
                }
                time = time.max(ready);
            }
            time += self.service[place];
            at = place;
        }
        Some(time + self.travel[at * self.side + self.depot])
    }
}
