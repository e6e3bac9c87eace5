//! Plans five places on a line by each engine and prints what comes of it (../c/plan_a_day.c is the same in C).
use planner::{
    cross_depot_improve, exchange_improve, or_opt_improve, relocate_improve, route_distance, three_opt_improve, two_opt_improve, Day,
    FleetColumns, Improved, Lists, ListsMut, Rearranged, Refusal, Vehicle, DEPOT,
};
use std::fmt::{self, Write};

const PLACES: usize = 5;
const LIMIT: u32 = 1000;

fn main() -> Result<(), fmt::Error> {
    let mut text = String::new();
    plan(&mut text)?;
    print!("{text}");
    Ok(())
}

/// The day planned by each engine, a line each.
pub fn plan(text: &mut String) -> fmt::Result {
    let places = Places::at([0.0, 10.0, 20.0, 30.0, 40.0], 1);
    let day = &places.day();
    let van = &Vehicle::new(0, 4);
    distance(text, day, van, &[2, 1, 3])?;
    within(text, "2-opt", two_opt_improve, day, van, [2, 1, 3])?;
    within(text, "Or-opt", or_opt_improve, day, van, [3, 1, 2])?;
    within(text, "3-opt", three_opt_improve, day, van, [1, 3, 2, 4])?;
    across(text, "relocate", relocate_improve, day, van, [1, 3, 2], [2, 1])?;
    across(text, "tail exchange", exchange_improve, day, &Vehicle::new(0, 2), [3, 1, 2, 4], [2, 2])?;
    cross_depot(text)?;
    within(text, "2-opt", two_opt_improve, day, van, [2, 1, 2])
}

/// Five places on a line, the first of them depots: what a day borrows.
struct Places {
    flags: [u8; PLACES],
    distances: [f64; PLACES * PLACES],
}

impl Places {
    fn at(positions: [f64; PLACES], depots: usize) -> Places {
        let mut flags = [0; PLACES];
        flags.iter_mut().take(depots).for_each(|flags| *flags = DEPOT);
        let mut distances = [0.0; PLACES * PLACES];
        let pairs = positions.iter().flat_map(|from| positions.iter().map(move |to| (to - from).abs()));
        distances.iter_mut().zip(pairs).for_each(|(entry, distance)| *entry = distance);
        Places { flags, distances }
    }

    /// One unit of demand at each place, no service time, no windows.
    fn day(&self) -> Day<'_> {
        Day {
            flags: &self.flags,
            demand: &[1; PLACES],
            service: &[0.0; PLACES],
            ready: &[0.0; PLACES],
            due: &[0.0; PLACES],
            penalty: &[0.0; PLACES],
            distances: &self.distances,
            times: &[],
        }
    }
}

fn distance(text: &mut String, day: &Day, van: &Vehicle, visits: &[u16]) -> fmt::Result {
    let lists = Lists { visits, lengths: &[visits.len() as u16] };
    match route_distance(lists, 0, day, van) {
        Ok(distance) => writeln!(text, "distance of {}: {distance}", joined(lists)),
        Err(refusal) => writeln!(text, "distance of {}: {refusal}", joined(lists)),
    }
}

type Within = fn(&mut ListsMut, usize, &Day, &Vehicle, u32) -> Result<Improved, Refusal>;

fn within<const N: usize>(text: &mut String, name: &str, engine: Within, day: &Day, van: &Vehicle, mut visits: [u16; N]) -> fmt::Result {
    let lists = &mut ListsMut { visits: &mut visits, lengths: &mut [N as u16] };
    write!(text, "{name} of {}: ", joined(lists.as_lists()))?;
    match engine(lists, 0, day, van, LIMIT) {
        Ok(Improved { end, moves, distance }) => writeln!(text, "{}, distance {distance}, moves {moves}, {end}", joined(lists.as_lists())),
        Err(refusal) => writeln!(text, "{refusal}"),
    }
}

type Across = fn(&mut ListsMut, &Day, &Vehicle, u32) -> Result<Rearranged, Refusal>;

fn across<const N: usize>(
    text: &mut String,
    name: &str,
    engine: Across,
    day: &Day,
    van: &Vehicle,
    mut visits: [u16; N],
    mut lengths: [u16; 2],
) -> fmt::Result {
    let lists = &mut ListsMut { visits: &mut visits, lengths: &mut lengths };
    write!(text, "{name} of {}, capacity {}: ", joined(lists.as_lists()), van.capacity())?;
    let answer = engine(lists, day, van, LIMIT);
    rearranged(text, lists.as_lists(), answer)
}

fn rearranged(text: &mut String, lists: Lists, answer: Result<Rearranged, Refusal>) -> fmt::Result {
    match answer {
        Ok(Rearranged { end, moves, remaining }) => writeln!(text, "{}, lists {remaining}, moves {moves}, {end}", joined(lists)),
        Err(refusal) => writeln!(text, "{refusal}"),
    }
}

/// Two vans from depots at 0 and 100; the list of the first also has the place at 90.
fn cross_depot(text: &mut String) -> fmt::Result {
    let places = Places::at([0.0, 100.0, 5.0, 90.0, 95.0], 2);
    let columns = FleetColumns::of(&[Vehicle::new(7, 10), Vehicle::new(8, 10).with_depot(1)]);
    let (mut visits, mut lengths, mut ids) = ([2, 3, 4], [2, 1], [7, 8]);
    let lists = &mut ListsMut { visits: &mut visits, lengths: &mut lengths };
    write!(text, "cross-depot of {}, depots at 0 and 100: ", joined(lists.as_lists()))?;
    let answer = cross_depot_improve(lists, &mut ids, &[180.0, 10.0], &places.day(), &columns.fleet(), LIMIT);
    rearranged(text, lists.as_lists(), answer)
}

/// The lists that aren't empty, as 1 2 and 3.
fn joined(lists: Lists) -> String {
    let words = |list: &[u16]| list.iter().map(u16::to_string).collect::<Vec<_>>().join(" ");
    let lists = lists.iter().filter(|list| !list.is_empty());
    lists.map(words).collect::<Vec<_>>().join(" and ")
}
