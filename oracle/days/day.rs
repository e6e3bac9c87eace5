//! A day as the text has it, and the slices that the port lends of it.

/// A van; a value whose flag is off is never read.
#[derive(Clone, Debug)]
pub struct Van {
    pub id: u32,
    pub depot: u64,
    pub capacity: i32,
    pub cost_per_distance: f64,
    pub fixed_cost: f64,
    /// Bit 0 distance limit, bit 1 duration limit, bit 2 break.
    pub flags: u8,
    pub max_distance: f64,
    pub max_duration: f64,
    pub earliest: f64,
    pub latest: f64,
    pub duration: f64,
}

/// One line asked for.
#[derive(Clone, Debug)]
pub struct Run {
    pub engine: String,
    /// Moves at most; -1 for none.
    pub limit: i64,
    pub list: u64,
}

/// What the port lends differently from what the day says (only the port reads these).
#[derive(Clone, Debug)]
pub enum Change {
    /// The column (a place in COLUMNS) is lent this many entries short; below 0, that many zeros longer.
    Trim(usize, i64),
    /// The number of locations said is this one.
    Size(u64),
    /// The length said of this list is that one.
    Length(usize, u16),
}

/// The columns of the day and its lists, then those of the fleet.
pub const COLUMNS: [&str; 23] = [
    "flags", "demand", "service", "ready", "due", "penalty", "dist", "times", "visits", "lengths", "vids", "prices", "van_ids",
    "depots", "capacities", "distance_costs", "fixed_costs", "van_flags", "max_distances", "max_durations", "earliest", "latest",
    "durations",
];
/// The first of the fleet's.
pub const FLEET_COLUMNS: usize = 12;

#[derive(Clone, Debug, Default)]
pub struct Day {
    /// By location: bit 0 depot, bit 1 window, bit 2 lateness penalty.
    pub flags: Vec<u8>,
    pub demand: Vec<i32>,
    pub service: Vec<f64>,
    pub ready: Vec<f64>,
    pub due: Vec<f64>,
    pub penalty: Vec<f64>,
    pub distances: Vec<f64>,
    /// Empty where the distances serve.
    pub times: Vec<f64>,
    pub vans: Vec<Van>,
    pub lists: Vec<Vec<u16>>,
    pub van_ids: Vec<u32>,
    pub prices: Vec<f64>,
    pub changes: Vec<Change>,
    pub runs: Vec<Run>,
}

impl Day {
    /// The day that lends just these slices, where that is one: the lengths add up to the visits, the columns to the size.
    pub fn lending(lent: Lent, vans: Vec<Van>, runs: Vec<Run>) -> Day {
        let mut lists = Vec::new();
        let mut at = 0;
        for length in &lent.lengths {
            let end = at + usize::from(*length);
            lists.push(lent.visits[at..end].to_vec());
            at = end;
        }
        let (mut van_ids, mut prices) = (lent.van_ids, lent.prices);
        van_ids.resize(lists.len(), 0);
        prices.resize(lists.len(), 0.0);
        Day {
            flags: lent.flags,
            demand: lent.demand,
            service: lent.service,
            ready: lent.ready,
            due: lent.due,
            penalty: lent.penalty,
            distances: lent.distances,
            times: lent.times,
            vans,
            lists,
            van_ids,
            prices,
            changes: Vec::new(),
            runs,
        }
    }

    pub fn locations(&self) -> usize {
        self.flags.len()
    }

    /// The leading flagged locations, at least one.
    pub fn depots(&self) -> usize {
        self.flags.iter().take_while(|f| *f & 1 != 0).count().max(1)
    }

    pub fn distance(&self, from: usize, to: usize) -> f64 {
        self.distances[from * self.locations() + to]
    }

    pub fn travel(&self, from: usize, to: usize) -> f64 {
        if self.times.is_empty() {
            self.distance(from, to)
        } else {
            self.times[from * self.locations() + to]
        }
    }
}

/// The fleet as it is lent to cross-depot: a column for each number of a van.
#[derive(Clone, Debug)]
pub struct Fleet {
    pub ids: Vec<u32>,
    pub depots: Vec<usize>,
    pub capacities: Vec<i32>,
    pub distance_costs: Vec<f64>,
    pub fixed_costs: Vec<f64>,
    pub flags: Vec<u8>,
    pub max_distances: Vec<f64>,
    pub max_durations: Vec<f64>,
    pub earliest: Vec<f64>,
    pub latest: Vec<f64>,
    pub durations: Vec<f64>,
}

impl Fleet {
    pub fn of(vans: &[Van]) -> Fleet {
        let column = |number: fn(&Van) -> f64| vans.iter().map(number).collect::<Vec<f64>>();
        Fleet {
            ids: vans.iter().map(|van| van.id).collect(),
            depots: vans.iter().map(|van| van.depot as usize).collect(),
            capacities: vans.iter().map(|van| van.capacity).collect(),
            distance_costs: column(|van| van.cost_per_distance),
            fixed_costs: column(|van| van.fixed_cost),
            flags: vans.iter().map(|van| van.flags).collect(),
            max_distances: column(|van| van.max_distance),
            max_durations: column(|van| van.max_duration),
            earliest: column(|van| van.earliest),
            latest: column(|van| van.latest),
            durations: column(|van| van.duration),
        }
    }

    /// The columns of numbers.
    pub fn numbers(&self) -> [&Vec<f64>; 7] {
        [&self.distance_costs, &self.fixed_costs, &self.max_distances, &self.max_durations, &self.earliest, &self.latest, &self.durations]
    }

    /// The vans; the columns have to be of one length.
    pub fn vans(&self) -> Vec<Van> {
        (0..self.ids.len()).map(|van| self.van(van)).collect()
    }

    fn van(&self, van: usize) -> Van {
        Van {
            id: self.ids[van],
            depot: self.depots[van] as u64,
            capacity: self.capacities[van],
            cost_per_distance: self.distance_costs[van],
            fixed_cost: self.fixed_costs[van],
            flags: self.flags[van],
            max_distance: self.max_distances[van],
            max_duration: self.max_durations[van],
            earliest: self.earliest[van],
            latest: self.latest[van],
            duration: self.durations[van],
        }
    }

    fn trim(&mut self, column: &str, entries: i64) {
        match column {
            "van_ids" => resize(&mut self.ids, entries),
            "depots" => resize(&mut self.depots, entries),
            "capacities" => resize(&mut self.capacities, entries),
            "distance_costs" => resize(&mut self.distance_costs, entries),
            "fixed_costs" => resize(&mut self.fixed_costs, entries),
            "van_flags" => resize(&mut self.flags, entries),
            "max_distances" => resize(&mut self.max_distances, entries),
            "max_durations" => resize(&mut self.max_durations, entries),
            "earliest" => resize(&mut self.earliest, entries),
            "latest" => resize(&mut self.latest, entries),
            _ => resize(&mut self.durations, entries),
        }
    }
}

/// The slices lent, the changes made.
#[derive(Clone, Debug)]
pub struct Lent {
    pub locations: u64,
    pub flags: Vec<u8>,
    pub demand: Vec<i32>,
    pub service: Vec<f64>,
    pub ready: Vec<f64>,
    pub due: Vec<f64>,
    pub penalty: Vec<f64>,
    pub distances: Vec<f64>,
    pub times: Vec<f64>,
    pub visits: Vec<u16>,
    pub lengths: Vec<u16>,
    pub van_ids: Vec<u32>,
    pub prices: Vec<f64>,
    pub fleet: Fleet,
}

impl Lent {
    pub fn of(day: &Day) -> Lent {
        let mut lent = Lent {
            locations: day.locations() as u64,
            flags: day.flags.clone(),
            demand: day.demand.clone(),
            service: day.service.clone(),
            ready: day.ready.clone(),
            due: day.due.clone(),
            penalty: day.penalty.clone(),
            distances: day.distances.clone(),
            times: day.times.clone(),
            visits: day.lists.concat(),
            lengths: day.lists.iter().map(|list| list.len() as u16).collect(),
            van_ids: day.van_ids.clone(),
            prices: day.prices.clone(),
            fleet: Fleet::of(&day.vans),
        };
        for change in &day.changes {
            lent.change(change);
        }
        lent
    }

    fn change(&mut self, change: &Change) {
        match *change {
            Change::Size(locations) => self.locations = locations,
            Change::Length(list, entries) => {
                if let Some(length) = self.lengths.get_mut(list) {
                    *length = entries;
                }
            }
            Change::Trim(column, entries) => self.trim(COLUMNS[column], entries),
        }
    }

    fn trim(&mut self, column: &str, entries: i64) {
        match column {
            "flags" => resize(&mut self.flags, entries),
            "demand" => resize(&mut self.demand, entries),
            "service" => resize(&mut self.service, entries),
            "ready" => resize(&mut self.ready, entries),
            "due" => resize(&mut self.due, entries),
            "penalty" => resize(&mut self.penalty, entries),
            "dist" => resize(&mut self.distances, entries),
            "times" => resize(&mut self.times, entries),
            "visits" => resize(&mut self.visits, entries),
            "lengths" => resize(&mut self.lengths, entries),
            "vids" => resize(&mut self.van_ids, entries),
            "prices" => resize(&mut self.prices, entries),
            _ => self.fleet.trim(column, entries),
        }
    }
}

/// Drops that many entries at the end (as many as there are), or adds zeros.
fn resize<T: Clone + Default>(column: &mut Vec<T>, entries: i64) {
    if entries < 0 {
        column.resize(column.len() + entries.unsigned_abs() as usize, T::default());
    } else {
        column.truncate(column.len().saturating_sub(entries as usize));
    }
}
