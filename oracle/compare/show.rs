//! A day for reading, then in the text format.
use crate::days::day::{Day, Van};
use crate::days::text::put_day;
use std::fmt::Write;

pub fn shown(day: &Day) -> String {
    let mut out = String::new();
    writeln!(out, "  {} locations, {} of them depots", day.locations(), day.depots()).unwrap();
    for place in 0..day.locations() {
        write!(out, "  {place}: demand {}, service {}", day.demand[place], day.service[place]).unwrap();
        if day.flags[place] & 2 != 0 {
            write!(out, ", window {} to {}", day.ready[place], day.due[place]).unwrap();
        }
        if day.flags[place] & 4 != 0 {
            write!(out, ", penalty {}", day.penalty[place]).unwrap();
        }
        writeln!(out, ", flags {}", day.flags[place]).unwrap();
    }
    table(&mut out, "distances", &day.distances, day.locations());
    table(&mut out, "times", &day.times, day.locations());
    for van in &day.vans {
        shown_van(&mut out, van);
    }
    writeln!(out, "  lists {:?}", day.lists).unwrap();
    put_day(&mut out, day);
    out
}

fn table(out: &mut String, name: &str, table: &[f64], side: usize) {
    if table.is_empty() {
        return;
    }
    writeln!(out, "  {name}").unwrap();
    for row in table.chunks(side.max(1)) {
        writeln!(out, "   {}", row.iter().map(|number| format!(" {number}")).collect::<String>()).unwrap();
    }
}

fn shown_van(out: &mut String, van: &Van) {
    write!(out, "  van {}: depot {}, capacity {}, costs {} and {}", van.id, van.depot, van.capacity, van.cost_per_distance, van.fixed_cost).unwrap();
    if van.flags & 1 != 0 {
        write!(out, ", distance at most {}", van.max_distance).unwrap();
    }
    if van.flags & 2 != 0 {
        write!(out, ", duration at most {}", van.max_duration).unwrap();
    }
    if van.flags & 4 != 0 {
        write!(out, ", break {} to {} for {}", van.earliest, van.latest, van.duration).unwrap();
    }
    writeln!(out, ", flags {}", van.flags).unwrap();
}
