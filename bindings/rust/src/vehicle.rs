//! The van, made by u-routing's constructors.

const MAX_DISTANCE: u8 = 1;
const MAX_DURATION: u8 = 2;
const BREAK: u8 = 4;

/// A van. Its fields are those of `struct planner_van` in include/planner.h; a limit or break that it doesn't have is 0.
#[repr(C)]
#[derive(Clone, Copy, Debug, PartialEq)]
pub struct Vehicle {
    pub(crate) id: u32,
    pub(crate) depot: usize,
    pub(crate) capacity: i32,
    pub(crate) cost_per_distance: f64,
    pub(crate) fixed_cost: f64,
    pub(crate) flags: u8,
    pub(crate) max_distance: f64,
    pub(crate) max_duration: f64,
    pub(crate) earliest: f64,
    pub(crate) latest: f64,
    pub(crate) duration: f64,
}

/// A rest that the driver takes on each list, unless the van is back by `earliest`.
#[derive(Clone, Copy, Debug, PartialEq)]
pub struct VehicleBreak {
    earliest: f64,
    latest: f64,
    duration: f64,
}

impl VehicleBreak {
    /// A break of `duration` that starts no earlier than `earliest` and no later than `latest`.
    pub const fn new(earliest: f64, latest: f64, duration: f64) -> VehicleBreak {
        VehicleBreak { earliest, latest, duration }
    }

    /// The first time at which the break may start.
    pub const fn earliest(&self) -> f64 {
        self.earliest
    }

    /// The last time at which the break may start.
    pub const fn latest(&self) -> f64 {
        self.latest
    }

    /// How long the break takes.
    pub const fn duration(&self) -> f64 {
        self.duration
    }
}

impl Vehicle {
    /// A van from depot 0, with cost per distance 1, no fixed cost, no limit and no break. The capacity is 0 to 2,000,000,000.
    pub const fn new(id: u32, capacity: i32) -> Vehicle {
        Vehicle {
            id,
            depot: 0,
            capacity,
            cost_per_distance: 1.0,
            fixed_cost: 0.0,
            flags: 0,
            max_distance: 0.0,
            max_duration: 0.0,
            earliest: 0.0,
            latest: 0.0,
            duration: 0.0,
        }
    }

    /// The depot location where its lists start and end.
    pub const fn with_depot(self, depot: usize) -> Vehicle {
        Vehicle { depot, ..self }
    }

    /// What one unit of distance costs: plain, and 0 or at least 2^-20.
    pub const fn with_cost_per_distance(self, cost_per_distance: f64) -> Vehicle {
        Vehicle { cost_per_distance, ..self }
    }

    /// What it costs to use the van at all.
    pub const fn with_fixed_cost(self, fixed_cost: f64) -> Vehicle {
        Vehicle { fixed_cost, ..self }
    }

    /// The longest distance of one list, the way back included.
    pub const fn with_max_distance(self, max_distance: f64) -> Vehicle {
        Vehicle { max_distance, flags: self.flags | MAX_DISTANCE, ..self }
    }

    /// The latest return, on the clock that starts at 0.
    pub const fn with_max_duration(self, max_duration: f64) -> Vehicle {
        Vehicle { max_duration, flags: self.flags | MAX_DURATION, ..self }
    }

    /// A break for the driver on every list.
    pub const fn with_break(self, rest: VehicleBreak) -> Vehicle {
        let VehicleBreak { earliest, latest, duration } = rest;
        Vehicle { earliest, latest, duration, flags: self.flags | BREAK, ..self }
    }

    /// The number that a list's van is told by.
    pub const fn id(&self) -> u32 {
        self.id
    }

    /// The greatest load of one list.
    pub const fn capacity(&self) -> i32 {
        self.capacity
    }

    /// The depot location where its lists start and end.
    pub const fn depot_id(&self) -> usize {
        self.depot
    }

    /// What one unit of distance costs.
    pub const fn cost_per_distance(&self) -> f64 {
        self.cost_per_distance
    }

    /// What it costs to use the van at all.
    pub const fn fixed_cost(&self) -> f64 {
        self.fixed_cost
    }

    /// The longest distance of one list, if there is a limit.
    pub const fn max_distance(&self) -> Option<f64> {
        self.where_flagged(MAX_DISTANCE, self.max_distance)
    }

    /// The latest return, if there is a limit.
    pub const fn max_duration(&self) -> Option<f64> {
        self.where_flagged(MAX_DURATION, self.max_duration)
    }

    /// The driver's break, if there is one.
    pub const fn rest(&self) -> Option<VehicleBreak> {
        if self.flags & BREAK == 0 {
            return None;
        }
        Some(VehicleBreak::new(self.earliest, self.latest, self.duration))
    }

    const fn where_flagged(&self, flag: u8, value: f64) -> Option<f64> {
        if self.flags & flag == 0 {
            return None;
        }
        Some(value)
    }
}
