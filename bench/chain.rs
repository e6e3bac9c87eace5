//! The clock of a list alone: the times of travel, waiting and service added up in the Rust's order, and nothing looked up, compared or kept. Each addition
//! waits for the one before, and each call for the one before it: calls that don't wait are run by a processor two at a time, and seem shorter than they are.
use crate::published::Published;

pub struct Chain {
    terms: Vec<f64>,
}

impl Chain {
    /// Of the first list, from the first vehicle's depot and back. A wait of 0 adds nothing, and is left out.
    pub fn of(day: &Published) -> Chain {
        let depot = day.vehicles[0].depot_id();
        let mut chain = Chain { terms: Vec::new() };
        let mut from = depot;
        for &visit in &day.route {
            let customer = &day.customers[visit];
            chain.terms.push(day.distances.travel_time(from, visit));
            let wait = customer.time_window().map_or(0.0, |window| window.waiting_time(chain.end_after(0.0)));
            if wait > 0.0 {
                chain.terms.push(wait);
            }
            chain.terms.push(customer.service_duration());
            from = visit;
        }
        chain.terms.push(day.distances.travel_time(from, depot));
        chain
    }

    /// When the van is back, once another has come back: that time counts for nothing, but it is waited for.
    pub fn end_after(&self, other: f64) -> f64 {
        self.terms.iter().fold(other * 0.0, |time, term| time + term)
    }
}
