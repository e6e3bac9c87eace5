//! A day as the published Rust takes it.
use crate::days::day::{Day, Van};
use crate::distance::DistanceMatrix;
use crate::evaluation::RouteLimits;
use crate::models::{Customer, Route, Solution, TimeWindow, Vehicle, VehicleBreak, Visit};

pub struct Published {
    pub customers: Vec<Customer>,
    pub distances: DistanceMatrix,
    pub vehicles: Vec<Vehicle>,
    /// Those of the first vehicle.
    pub limits: RouteLimits,
    /// The first list.
    pub route: Vec<usize>,
    pub solution: Solution,
}

impl Published {
    pub fn of(day: &Day) -> Published {
        let vehicles: Vec<Vehicle> = day.vans.iter().map(vehicle).collect();
        let mut solution = Solution::new();
        for ((list, van_id), price) in day.lists.iter().zip(&day.van_ids).zip(&day.prices) {
            solution.add_route(route(list, *van_id as usize, *price));
        }
        Published {
            customers: (0..day.locations()).map(|place| customer(day, place)).collect(),
            distances: distances(day),
            limits: RouteLimits::of(&vehicles[0]),
            vehicles,
            route: day.lists[0].iter().map(|visit| usize::from(*visit)).collect(),
            solution,
        }
    }
}

fn customer(day: &Day, place: usize) -> Customer {
    let flags = day.flags[place];
    let mut customer = Customer::new(place, 0.0, 0.0, day.demand[place], day.service[place]).placed(place, flags & 1 != 0);
    if flags & 2 != 0 {
        customer = customer.with_time_window(TimeWindow::new(day.ready[place], day.due[place]).expect("a window"));
    }
    if flags & 4 != 0 {
        customer = customer.with_lateness_penalty(day.penalty[place]).expect("a penalty");
    }
    customer
}

fn distances(day: &Day) -> DistanceMatrix {
    let distances = DistanceMatrix::from_data(day.locations(), day.distances.clone()).expect("a square table");
    if day.times.is_empty() {
        return distances;
    }
    distances.with_travel_times(day.times.clone()).expect("a square table")
}

fn vehicle(van: &Van) -> Vehicle {
    let mut vehicle = Vehicle::new(van.id as usize, van.capacity).with_depot(van.depot as usize);
    vehicle = vehicle.with_cost_per_distance(van.cost_per_distance).with_fixed_cost(van.fixed_cost);
    if van.flags & 1 != 0 {
        vehicle = vehicle.with_max_distance(van.max_distance);
    }
    if van.flags & 2 != 0 {
        vehicle = vehicle.with_max_duration(van.max_duration);
    }
    if van.flags & 4 != 0 {
        vehicle = vehicle.with_break(VehicleBreak::new(van.earliest, van.latest, van.duration));
    }
    vehicle
}

fn route(list: &[u16], van_id: usize, price: f64) -> Route {
    let mut route = Route::new(van_id);
    for visit in list {
        route.push_visit(Visit { customer_id: usize::from(*visit), arrival_time: 0.0, departure_time: 0.0, load_after: 0 });
    }
    route.set_total_distance(price);
    route
}
