//! A list's distance and clock, written from document 01. The generator sets windows, breaks and limits on the values
//! that this gives; no answer is compared with it.
use super::day::{Day, Van};

/// What a list that passes comes to.
#[derive(Clone, Copy, Debug)]
pub struct Totals {
    pub distance: f64,
    pub duration: f64,
    pub lateness: f64,
    pub lateness_cost: f64,
    /// Where the break is taken: position in the list, start.
    pub rest: Option<(usize, f64)>,
}

#[derive(Clone, Copy)]
struct Label {
    time: f64,
    lateness: f64,
    lateness_cost: f64,
    rest: Option<(usize, f64)>,
}

/// When the stop is done that is ready to be served at `ready_at`: waiting, lateness, service. None: late at a hard window.
fn served(day: &Day, label: &Label, place: usize, ready_at: f64, rest: Option<(usize, f64)>) -> Option<Label> {
    let mut next = Label { rest, ..*label };
    let mut start = ready_at;
    if day.flags[place] & 2 != 0 {
        if ready_at > day.due[place] {
            if day.flags[place] & 4 == 0 {
                return None;
            }
            let late = ready_at - day.due[place];
            next.lateness += late;
            next.lateness_cost += day.penalty[place] * late;
        }
        let waiting = if ready_at < day.ready[place] { day.ready[place] - ready_at } else { 0.0 };
        start = ready_at + waiting;
    }
    next.time = start + day.service[place];
    Some(next)
}

/// The break at this stop, then the stop. None also where the break would start after latest.
fn rested(day: &Day, van: &Van, label: &Label, place: usize, arrival: f64, position: usize) -> Option<Label> {
    let start = if van.earliest > arrival { van.earliest } else { arrival };
    if start > van.latest {
        return None;
    }
    served(day, label, place, start + van.duration, Some((position, start)))
}

/// Of two labels the lesser (time, lateness cost), ties to the one carried.
fn lesser(carried: Option<Label>, here: Option<Label>) -> Option<Label> {
    let (Some(old), Some(new)) = (carried, here) else {
        return carried.or(here);
    };
    let less = new.time < old.time || (new.time == old.time && new.lateness_cost < old.lateness_cost);
    Some(if less { new } else { old })
}

/// The distance from the van's depot through the list and back.
pub fn distance(day: &Day, van: &Van, list: &[u16]) -> f64 {
    let depot = van.depot as usize;
    let mut at = depot;
    let mut sum = 0.0;
    for &visit in list {
        sum += day.distance(at, visit as usize);
        at = visit as usize;
    }
    sum + day.distance(at, depot)
}

/// The list's totals by the van's clock, its break included where it has one; the limits are not applied.
pub fn totals(day: &Day, van: &Van, list: &[u16]) -> Option<Totals> {
    let breaks = van.flags & 4 != 0;
    let depot = van.depot as usize;
    let mut at = depot;
    let mut before = Some(Label { time: 0.0, lateness: 0.0, lateness_cost: 0.0, rest: None });
    let mut after = None;
    for (position, &visit) in list.iter().enumerate() {
        let place = visit as usize;
        let travel = day.travel(at, place);
        let on = |label: &Label| served(day, label, place, label.time + travel, label.rest);
        let here = before.as_ref().filter(|_| breaks).and_then(|l| rested(day, van, l, place, l.time + travel, position));
        after = lesser(after.as_ref().and_then(on), here);
        before = before.as_ref().and_then(on);
        at = place;
    }
    let back = day.travel(at, depot);
    let home = before.filter(|label| !breaks || label.time + back <= van.earliest).or(after)?;
    Some(Totals {
        distance: distance(day, van, list),
        duration: home.time + back,
        lateness: home.lateness,
        lateness_cost: home.lateness_cost,
        rest: home.rest,
    })
}

/// The totals where the limits allow them.
pub fn evaluated(day: &Day, van: &Van, list: &[u16]) -> Option<Totals> {
    let far = |t: &Totals| van.flags & 1 != 0 && t.distance > van.max_distance;
    let long = |t: &Totals| van.flags & 2 != 0 && t.duration > van.max_duration;
    totals(day, van, list).filter(|t| !far(t) && !long(t))
}

/// When the van gets to each visit and back to its depot, with no break and whatever is late.
pub fn arrivals(day: &Day, van: &Van, list: &[u16]) -> Vec<f64> {
    let depot = van.depot as usize;
    let mut times = Vec::new();
    let mut at = depot;
    let mut time = 0.0;
    for &visit in list {
        let place = visit as usize;
        let arrival = time + day.travel(at, place);
        times.push(arrival);
        time = leaving(day, place, arrival);
        at = place;
    }
    times.push(time + day.travel(at, depot));
    times
}

/// When a van that arrives then leaves that place.
pub fn leaving(day: &Day, place: usize, arrival: f64) -> f64 {
    let waits = day.flags[place] & 2 != 0 && arrival < day.ready[place];
    let waiting = if waits { day.ready[place] - arrival } else { 0.0 };
    arrival + waiting + day.service[place]
}
