//! Reads the stored sample back, from README.md's words alone, as days and the lines of their runs.
use crate::days::day::{Day, Fleet, Run, Van};
use crate::days::text::hex;

struct Bytes<'a> {
    bytes: &'a [u8],
    at: usize,
    /// Where the day's table starts.
    table: usize,
}

impl Bytes<'_> {
    fn byte(&mut self) -> Option<u8> {
        let byte = *self.bytes.get(self.at)?;
        self.at += 1;
        Some(byte)
    }

    fn bytes(&mut self, count: usize) -> Option<Vec<u8>> {
        (0..count).map(|_| self.byte()).collect()
    }

    fn short(&mut self) -> Option<usize> {
        let low = usize::from(self.byte()?);
        Some(low + 256 * usize::from(self.byte()?))
    }

    fn entry(&self, byte: u8) -> Option<u64> {
        let at = self.table + 8 * usize::from(byte - 128);
        Some(u64::from_le_bytes(self.bytes.get(at..at + 8)?.try_into().ok()?))
    }

    fn whole(&mut self) -> Option<u64> {
        let byte = self.byte()?;
        if byte < 128 { Some(u64::from(byte)) } else { self.entry(byte) }
    }

    fn wholes(&mut self, count: usize) -> Option<Vec<u64>> {
        (0..count).map(|_| self.whole()).collect()
    }

    fn number(&mut self) -> Option<f64> {
        let byte = self.byte()?;
        if byte < 128 { Some(f64::from(byte)) } else { self.entry(byte).map(f64::from_bits) }
    }

    fn numbers(&mut self, count: usize) -> Option<Vec<f64>> {
        (0..count).map(|_| self.number()).collect()
    }

    fn hexes(&mut self, count: usize) -> Option<String> {
        Some(self.numbers(count)?.into_iter().map(hex).collect::<Vec<_>>().join(" "))
    }
}

pub fn days(bytes: &[u8]) -> Option<Vec<(Day, Vec<String>)>> {
    let mut input = Bytes { bytes, at: 0, table: 0 };
    let count = input.short()?;
    let days: Option<Vec<_>> = (0..count).map(|_| day(&mut input)).collect();
    days.filter(|_| input.at == bytes.len())
}

fn day(input: &mut Bytes) -> Option<(Day, Vec<String>)> {
    let end = input.short()? + input.at;
    let locations = usize::from(input.byte()?);
    let entries = usize::from(input.byte()?);
    input.table = input.at;
    input.at += 8 * entries;
    let mut day = Day { flags: input.bytes(locations)?, ..Day::default() };
    for _ in 0..locations {
        day.demand.push(input.whole()? as i32);
    }
    day.service = input.numbers(locations)?;
    day.ready = input.numbers(locations)?;
    day.due = input.numbers(locations)?;
    day.penalty = input.numbers(locations)?;
    day.distances = input.numbers(locations * locations)?;
    if input.byte()? == 1 {
        day.times = input.numbers(locations * locations)?;
    }
    day.vans.push(van(input)?);
    let lists = usize::from(input.byte()?);
    for length in input.bytes(lists)? {
        day.lists.push(vec![0; usize::from(length)]);
    }
    for visit in day.lists.iter_mut().flatten() {
        *visit = u16::from(input.byte()?);
    }
    (day.van_ids, day.prices) = (vec![0; lists], vec![0.0; lists]);
    let lines = runs(input, &mut day)?;
    if input.at == end { Some((day, lines)) } else { None }
}

fn van(input: &mut Bytes) -> Option<Van> {
    Some(Van {
        id: input.whole()? as u32,
        depot: input.whole()?,
        capacity: input.whole()? as i32,
        cost_per_distance: input.number()?,
        fixed_cost: input.number()?,
        flags: input.byte()?,
        max_distance: input.number()?,
        max_duration: input.number()?,
        earliest: input.number()?,
        latest: input.number()?,
        duration: input.number()?,
    })
}

/// The runs of known tags, and their lines.
fn runs(input: &mut Bytes, day: &mut Day) -> Option<Vec<String>> {
    let mut lines = Vec::new();
    for _ in 0..input.byte()? {
        let tag = input.byte()?;
        let end = usize::from(input.byte()?) + input.at;
        if let Some((run, answer)) = run(input, day, tag)? {
            lines.push(format!("{} {answer}", run.engine));
            day.runs.push(run);
        } else {
            input.at = end;
        }
        if input.at != end {
            return None;
        }
    }
    Some(lines)
}

/// A run and its answer; within, none for a tag that isn't known.
fn run(input: &mut Bytes, day: &mut Day, tag: u8) -> Option<Option<(Run, String)>> {
    let engine = match tag {
        1 => "feasible",
        2 => "eval",
        3 => "schedule",
        4 => "distance",
        16 => "two_opt",
        17 => "or_opt",
        18 => "three_opt",
        19 => "relocate",
        20 => "relocate_np",
        21 => "exchange",
        22 => "cross",
        _ => return Some(None),
    };
    if tag == 22 {
        for_fleet(input, day)?;
    }
    let lists = &day.lists;
    if tag > 18 {
        let limit = input.whole()? as i64;
        let answer = end_of_all(input, lists, tag == 22)?;
        return Some(Some((Run { engine: engine.to_string(), limit, list: 0 }, answer)));
    }
    let list = u64::from(input.byte()?);
    let limit = if tag < 16 { 0 } else { input.whole()? as i64 };
    let answer = match tag {
        1 => input.byte()?.to_string(),
        2 | 3 => totals(input, tag == 3)?,
        4 => input.hexes(1)?,
        _ => end(input, lists.get(list as usize)?.len())?,
    };
    Some(Some((Run { engine: engine.to_string(), limit, list }, answer)))
}

/// Reads the fleet, the van ids and the prices of the lists, which stand in every run for a fleet, into the day.
fn for_fleet(input: &mut Bytes, day: &mut Day) -> Option<()> {
    let (vans, lists) = (usize::from(input.byte()?), day.lists.len());
    let fleet = Fleet {
        ids: input.wholes(vans)?.into_iter().map(|id| id as u32).collect(),
        depots: input.wholes(vans)?.into_iter().map(|depot| depot as usize).collect(),
        capacities: input.wholes(vans)?.into_iter().map(|capacity| capacity as i32).collect(),
        distance_costs: input.numbers(vans)?,
        fixed_costs: input.numbers(vans)?,
        flags: input.bytes(vans)?,
        max_distances: input.numbers(vans)?,
        max_durations: input.numbers(vans)?,
        earliest: input.numbers(vans)?,
        latest: input.numbers(vans)?,
        durations: input.numbers(vans)?,
    };
    day.vans = fleet.vans();
    day.van_ids = input.wholes(lists)?.into_iter().map(|id| id as u32).collect();
    day.prices = input.numbers(lists)?;
    Some(())
}

/// What a list comes to, with the break where it is a schedule.
fn totals(input: &mut Bytes, schedule: bool) -> Option<String> {
    if input.byte()? == 0 {
        return Some("none".to_string());
    }
    let mut answer = format!("some {}", input.hexes(4)?);
    if schedule && input.byte()? == 1 {
        answer.push_str(&format!(" {} {}", input.byte()?, input.hexes(1)?));
    } else if schedule {
        answer.push_str(" - -");
    }
    Some(answer)
}

/// How a run on a list of that length ended, and the list handed back.
fn end(input: &mut Bytes, length: usize) -> Option<String> {
    let word = if input.byte()? == 0 { "settled" } else { "stopped" };
    let (moves, distance) = (input.whole()?, input.hexes(1)?);
    Some(format!("{word} {moves} {distance} [{}]", visits(input, length)?))
}

fn visits(input: &mut Bytes, count: usize) -> Option<String> {
    Some(input.bytes(count)?.iter().map(u8::to_string).collect::<Vec<_>>().join(","))
}

/// How a run over all lists ended, the lists handed back, where they have ids these too, and how many remain. The lengths and
/// ids behind these are 0, and all visits are there.
fn end_of_all(input: &mut Bytes, lent: &[Vec<u16>], with_ids: bool) -> Option<String> {
    let word = if input.byte()? == 0 { "settled" } else { "stopped" };
    let (moves, remaining) = (input.whole()?, usize::from(input.byte()?));
    let lengths: Vec<usize> = input.bytes(lent.len())?.into_iter().map(usize::from).collect();
    if lengths.iter().sum::<usize>() != lent.iter().map(Vec::len).sum() || lengths.iter().skip(remaining).any(|length| *length > 0) {
        return None;
    }
    let lists: Option<Vec<String>> = lengths.iter().take(remaining).map(|length| visits(input, *length)).collect();
    let lists = lists?.join("|");
    if !with_ids {
        return Some(format!("{word} {moves} [{lists}] {remaining}"));
    }
    let ids = input.wholes(lent.len())?;
    if ids.iter().skip(remaining).any(|id| *id > 0) {
        return None;
    }
    let ids = ids.iter().take(remaining).map(u64::to_string).collect::<Vec<_>>().join(",");
    Some(format!("{word} {moves} [{lists}] ids {ids} {remaining}"))
}
