//! A day and its answers as bytes (README.md, 'The stored sample').
use crate::days::day::{Day, Fleet, Run};
use crate::days::fleet;

/// From this byte on a number stands in the day's table.
const TABLED: u8 = 128;

/// The runs that are stored, with their tags.
pub const TAGS: [(&str, u8); 11] = [
    ("feasible", 1),
    ("eval", 2),
    ("schedule", 3),
    ("distance", 4),
    ("two_opt", 16),
    ("or_opt", 17),
    ("three_opt", 18),
    ("relocate", 19),
    ("relocate_np", 20),
    ("exchange", 21),
    ("cross", 22),
];

pub const ENDS: [&str; 2] = ["settled", "stopped"];

/// The tag of a kind of run; none where it isn't stored.
pub fn tag(engine: &str) -> Option<u8> {
    TAGS.iter().find(|(known, _)| *known == engine).map(|(_, tag)| *tag)
}

/// The numbers that a day needs and no byte is.
struct Table(Vec<u64>);

impl Table {
    /// The byte for the entry; none where the table is full.
    fn entry(&mut self, bits: u64) -> Option<u8> {
        let place = self.0.iter().position(|known| *known == bits).unwrap_or_else(|| {
            self.0.push(bits);
            self.0.len() - 1
        });
        u8::try_from(place).ok().filter(|place| *place < TABLED).map(|place| TABLED + place)
    }

    fn whole(&mut self, whole: u64) -> Option<u8> {
        if whole < u64::from(TABLED) { Some(whole as u8) } else { self.entry(whole) }
    }

    fn number(&mut self, number: f64) -> Option<u8> {
        let number = if number.is_nan() { f64::INFINITY } else { number }; // only where it isn't read
        let small = number as u8;
        if small < TABLED && f64::from(small).to_bits() == number.to_bits() { Some(small) } else { self.entry(number.to_bits()) }
    }

    fn numbers(&mut self, out: &mut Vec<u8>, numbers: &[f64]) -> Option<()> {
        for number in numbers {
            out.push(self.number(*number)?);
        }
        Some(())
    }

    /// A number in the text's hex.
    fn hex(&mut self, word: &str) -> Option<u8> {
        self.number(f64::from_bits(u64::from_str_radix(word, 16).ok()?))
    }
}

/// The day's bytes; none where it has too many numbers, no run, or a run that isn't stored.
pub fn day(day: &Day, lines: &[String]) -> Option<Vec<u8>> {
    let mut table = Table(Vec::new());
    let mut rest = Vec::new();
    if day.runs.is_empty() {
        return None;
    }
    columns(day, &mut table, &mut rest)?;
    van(day, &mut table, &mut rest)?;
    rest.push(day.lists.len() as u8);
    rest.extend(day.lists.iter().map(|list| list.len() as u8));
    rest.extend(day.lists.iter().flatten().map(|visit| *visit as u8));
    rest.push(u8::try_from(day.runs.len()).ok()?);
    for (run, line) in day.runs.iter().zip(lines) {
        let (tag, payload) = answer(day, run, line, &mut table)?;
        rest.extend([tag, u8::try_from(payload.len()).ok()?]);
        rest.extend(payload);
    }
    let mut bytes = vec![day.locations() as u8, table.0.len() as u8];
    bytes.extend(table.0.iter().flat_map(|bits| bits.to_le_bytes()));
    bytes.extend(rest);
    let mut out = u16::try_from(bytes.len()).ok()?.to_le_bytes().to_vec();
    out.extend(bytes);
    Some(out)
}

fn columns(day: &Day, table: &mut Table, out: &mut Vec<u8>) -> Option<()> {
    out.extend(&day.flags);
    for demand in &day.demand {
        out.push(table.whole(*demand as u64)?);
    }
    for column in [&day.service, &day.ready, &day.due, &day.penalty, &day.distances] {
        table.numbers(out, column)?;
    }
    out.push(u8::from(!day.times.is_empty()));
    table.numbers(out, &day.times)
}

/// The first van; of a day without one, any.
fn van(day: &Day, table: &mut Table, out: &mut Vec<u8>) -> Option<()> {
    let van = day.vans.first().cloned().unwrap_or_else(|| fleet::van(0, 0, 0.0, 0.0));
    for whole in [u64::from(van.id), van.depot, van.capacity as u64] {
        out.push(table.whole(whole)?);
    }
    table.numbers(out, &[van.cost_per_distance, van.fixed_cost])?;
    out.push(van.flags);
    table.numbers(out, &[van.max_distance, van.max_duration, van.earliest, van.latest, van.duration])
}

/// The run's tag and what stands behind its size.
fn answer(day: &Day, run: &Run, line: &str, table: &mut Table) -> Option<(u8, Vec<u8>)> {
    let words: Vec<&str> = line.split(' ').skip(1).collect();
    let (tag, lists) = (tag(&run.engine)?, day.lists.len());
    match (run.engine.as_str(), &words[..]) {
        ("relocate" | "relocate_np" | "exchange", [end, moves, back, remaining]) => {
            return Some((tag, over_all_lists(run.limit, [end, moves, back, remaining], lists, table)?));
        }
        ("cross", [end, moves, back, "ids", ids, remaining]) => {
            let mut out = for_fleet(day, table)?;
            out.extend(over_all_lists(run.limit, [end, moves, back, remaining], lists, table)?);
            let ids: Vec<u64> = ids.split(',').filter(|id| !id.is_empty()).map(|id| id.parse().ok()).collect::<Option<_>>()?;
            put_wholes(&mut out, ids.into_iter().chain(std::iter::repeat(0)).take(lists), table)?;
            return Some((tag, out));
        }
        _ => {}
    }
    let mut out = vec![run.list as u8];
    match (run.engine.as_str(), &words[..]) {
        ("feasible", [passes]) => out.push(passes.parse().ok()?),
        ("distance", [distance]) => out.push(table.hex(distance)?),
        (_, ["none"]) => out.push(0),
        ("eval", ["some", numbers @ ..]) => put_some(&mut out, numbers, table)?,
        ("schedule", ["some", numbers @ .., "-", "-"]) => {
            put_some(&mut out, numbers, table)?;
            out.push(0);
        }
        ("schedule", ["some", numbers @ .., position, start]) => {
            put_some(&mut out, numbers, table)?;
            out.extend([1, position.parse().ok()?, table.hex(start)?]);
        }
        (_, [end, moves, distance, list]) => put_end(&mut out, run.limit, [end, moves, distance, list], table)?,
        _ => return None,
    }
    Some((tag, out))
}

fn put_wholes(out: &mut Vec<u8>, wholes: impl Iterator<Item = u64>, table: &mut Table) -> Option<()> {
    for whole in wholes {
        out.push(table.whole(whole)?);
    }
    Some(())
}

/// The number of vans, the fleet's columns, the van ids and the prices of the lists.
fn for_fleet(day: &Day, table: &mut Table) -> Option<Vec<u8>> {
    let fleet = Fleet::of(&day.vans);
    let mut out = vec![fleet.ids.len() as u8];
    put_wholes(&mut out, fleet.ids.iter().map(|id| u64::from(*id)), table)?;
    put_wholes(&mut out, fleet.depots.iter().map(|depot| *depot as u64), table)?;
    put_wholes(&mut out, fleet.capacities.iter().map(|capacity| *capacity as u64), table)?;
    table.numbers(&mut out, &fleet.distance_costs)?;
    table.numbers(&mut out, &fleet.fixed_costs)?;
    out.extend(&fleet.flags);
    for column in [&fleet.max_distances, &fleet.max_durations, &fleet.earliest, &fleet.latest, &fleet.durations] {
        table.numbers(&mut out, column)?;
    }
    put_wholes(&mut out, day.van_ids.iter().map(|id| u64::from(*id)), table)?;
    table.numbers(&mut out, &day.prices)?;
    Some(out)
}

/// Limit, end word, moves, distance and the list handed back.
fn put_end(out: &mut Vec<u8>, limit: i64, [end, moves, distance, list]: [&str; 4], table: &mut Table) -> Option<()> {
    put_word(out, limit, end, moves, table)?;
    out.push(table.hex(distance)?);
    out.extend(visits(list.strip_prefix('[')?.strip_suffix(']')?)?);
    Some(())
}

/// Limit, end word, moves, the lists that remain, the lengths of as many lists as were lent, and all visits.
fn over_all_lists(limit: i64, [end, moves, back, remaining]: [&str; 4], lent: usize, table: &mut Table) -> Option<Vec<u8>> {
    let mut out = Vec::new();
    put_word(&mut out, limit, end, moves, table)?;
    let remaining: u8 = remaining.parse().ok()?;
    out.push(remaining);
    let parts = back.strip_prefix('[')?.strip_suffix(']')?.split('|').take(usize::from(remaining));
    let lists: Vec<Vec<u8>> = parts.map(visits).collect::<Option<_>>()?;
    let lengths = lists.iter().map(|list| list.len() as u8).chain(std::iter::repeat(0));
    out.extend(lengths.take(lent));
    out.extend(lists.iter().flatten());
    Some(out)
}

fn put_word(out: &mut Vec<u8>, limit: i64, end: &str, moves: &str, table: &mut Table) -> Option<()> {
    out.push(table.whole(u64::try_from(limit).ok()?)?);
    out.push(ENDS.iter().position(|word| *word == end)? as u8);
    out.push(table.whole(moves.parse().ok()?)?);
    Some(())
}

fn visits(list: &str) -> Option<Vec<u8>> {
    list.split(',').filter(|visit| !visit.is_empty()).map(|visit| visit.parse().ok()).collect()
}

fn put_some(out: &mut Vec<u8>, numbers: &[&str], table: &mut Table) -> Option<()> {
    out.push(1);
    for number in numbers {
        out.push(table.hex(number)?);
    }
    Some(())
}
