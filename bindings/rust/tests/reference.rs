//! Stored runs of the published Rust asked of the bindings: crates/replay/stdin, and for `table` and `cross` days.txt, of which
//! lines.txt has what the reference prints (oracle/README.md has both forms). A run makes one line, as the reference prints it: end
//! word, moves, distance by its bits, lists; and what isn't asked for stays as it was.
#[path = "../../../oracle/days/mod.rs"]
mod days;
#[path = "../../../oracle/sample/decode.rs"]
mod decode;
use days::day::{Day, Lent, Run, Van};
use days::text::{hex, Reader};
use planner::*;
use std::collections::BTreeMap;

static SAMPLE: &[u8] = include_bytes!("../../../crates/replay/stdin");
static DAYS: &str = include_str!("days.txt");
static LINES: &str = include_str!("lines.txt");

#[test]
fn the_sample_has_the_reference_s_answers() {
    let days = decode::days(SAMPLE).expect("crates/replay/stdin is in its form");
    let mut counts = BTreeMap::new();
    for (day, lines) in &days {
        assert_eq!(day.runs.len(), lines.len());
        for (run, line) in day.runs.iter().zip(lines) {
            assert_eq!(&format!("{} {}", run.engine, answer(day, run)), line, "{day:?}");
            *counts.entry(run.engine.as_str()).or_insert(0) += 1;
        }
    }
    println!("{counts:?}");
    for kind in ["feasible", "eval", "schedule", "distance", "two_opt", "or_opt", "three_opt", "relocate", "relocate_np", "exchange"] {
        assert!(counts.get(kind).is_some_and(|count| *count >= 100), "{kind}: {counts:?}");
    }
}

#[test]
fn the_days_of_the_text_have_the_reference_s_answers() {
    let mut reader = Reader::new(DAYS);
    let mut lines = LINES.lines();
    while let Some(day) = reader.day().expect("days.txt is in its form") {
        for run in &day.runs {
            assert_eq!(Some(format!("{} {}", run.engine, answer(&day, run)).as_str()), lines.next(), "{day:?}");
        }
    }
    assert_eq!(lines.next(), None);
}

fn answer(day: &Day, run: &Run) -> String {
    let lent = Lent::of(day);
    let answer = if run.engine == "cross" { cross(day, &lent, run) } else { answer_for_van(day, &lent, run) };
    answer.unwrap_or_else(|refusal| refusal.to_string())
}

fn answer_for_van(day: &Day, lent: &Lent, run: &Run) -> Result<String, Refusal> {
    let van = vehicle(day.vans.first().expect("a day of such runs has a van"));
    let lists = Lists { visits: &lent.visits, lengths: &lent.lengths };
    let list = run.list as usize;
    let borrowed = &columns(lent);
    refusal_of(lists, list, borrowed, &van)?;
    refusal_of_lists(lists, borrowed, &van)?;
    match run.engine.as_str() {
        "feasible" => route_feasible(lists, list, borrowed, &van).map(|passes| u8::from(passes).to_string()),
        "eval" => route_eval(lists, list, borrowed, &van).map(evaluated),
        "schedule" => schedule(lists, list, borrowed, &van).map(scheduled),
        "distance" => route_distance(lists, list, borrowed, &van).map(hex),
        "table" => table_of(borrowed, &van).map(table),
        "two_opt" => within(two_opt_improve, lent, run, &van),
        "or_opt" => within(or_opt_improve, lent, run, &van),
        "three_opt" => within(three_opt_improve, lent, run, &van),
        "relocate" => across(relocate_improve, lent, run, &van),
        "relocate_np" => across(relocate_improve_unpruned, lent, run, &van),
        "exchange" => across(exchange_improve, lent, run, &van),
        engine => panic!("no run is called {engine}"),
    }
}

fn columns(lent: &Lent) -> planner::Day<'_> {
    planner::Day {
        flags: &lent.flags,
        demand: &lent.demand,
        service: &lent.service,
        ready: &lent.ready,
        due: &lent.due,
        penalty: &lent.penalty,
        distances: &lent.distances,
        times: &lent.times,
    }
}

fn vehicle(van: &Van) -> Vehicle {
    let mut vehicle = Vehicle::new(van.id, van.capacity)
        .with_depot(van.depot as usize)
        .with_cost_per_distance(van.cost_per_distance)
        .with_fixed_cost(van.fixed_cost);
    if van.flags & 1 != 0 {
        vehicle = vehicle.with_max_distance(van.max_distance);
    }
    if van.flags & 2 != 0 {
        vehicle = vehicle.with_max_duration(van.max_duration);
    }
    if van.flags & 4 != 0 {
        vehicle = vehicle.with_break(VehicleBreak::new(van.earliest, van.latest, van.duration));
    }
    vehicle
}

/// The limit of a run; none is more than any run makes.
fn limit(run: &Run) -> u32 {
    u32::try_from(run.limit).unwrap_or(u32::MAX)
}

fn totals(eval: RouteEval) -> String {
    [eval.distance, eval.duration, eval.lateness, eval.lateness_cost].map(hex).join(" ")
}

fn evaluated(passes: Option<RouteEval>) -> String {
    passes.map_or("none".to_string(), |eval| format!("some {}", totals(eval)))
}

fn scheduled(found: Option<Scheduled>) -> String {
    match found {
        None => "none".to_string(),
        Some(Scheduled { eval, rest: None }) => format!("some {} - -", totals(eval)),
        Some(Scheduled { eval, rest: Some((position, start)) }) => format!("some {} {position} {}", totals(eval), hex(start)),
    }
}

fn table(table: Table) -> String {
    let Table { scale, floor, symmetric, fixed_cost_in_distance, depots } = table;
    let [scale, floor, fixed] = [scale, floor, fixed_cost_in_distance].map(hex);
    format!("scale {scale} floor {floor} symmetric {} fixed {fixed} depots {depots}", u8::from(symmetric))
}

fn joined(list: &[u16]) -> String {
    list.iter().map(u16::to_string).collect::<Vec<_>>().join(",")
}

type Within = fn(&mut ListsMut, usize, &planner::Day, &Vehicle, u32) -> Result<Improved, Refusal>;

fn within(engine: Within, lent: &Lent, run: &Run, van: &Vehicle) -> Result<String, Refusal> {
    let list = run.list as usize;
    let (mut visits, mut lengths) = (lent.visits.clone(), lent.lengths.clone());
    let lists = &mut ListsMut { visits: &mut visits, lengths: &mut lengths };
    let Improved { end, moves, distance } = engine(lists, list, &columns(lent), van, limit(run))?;
    assert_eq!(lists.lengths, &lent.lengths[..]);
    let before = Lists { visits: &lent.visits, lengths: &lent.lengths };
    for (number, (now, lent)) in lists.as_lists().iter().zip(before.iter()).enumerate() {
        assert!(number == list || now == lent, "list {number} was changed");
    }
    Ok(format!("{end} {moves} {} [{}]", hex(distance), joined(lists.as_lists().get(list).expect("the list asked for"))))
}

type Across = fn(&mut ListsMut, &planner::Day, &Vehicle, u32) -> Result<Rearranged, Refusal>;

fn across(engine: Across, lent: &Lent, run: &Run, van: &Vehicle) -> Result<String, Refusal> {
    let (mut visits, mut lengths) = (lent.visits.clone(), lent.lengths.clone());
    let lists = &mut ListsMut { visits: &mut visits, lengths: &mut lengths };
    let Rearranged { end, moves, remaining } = engine(lists, &columns(lent), van, limit(run))?;
    Ok(format!("{end} {moves} {} {remaining}", remaining_lists(lists.as_lists(), remaining)))
}

fn cross(day: &Day, lent: &Lent, run: &Run) -> Result<String, Refusal> {
    let (mut visits, mut lengths, mut ids) = (lent.visits.clone(), lent.lengths.clone(), lent.van_ids.clone());
    let lists = &mut ListsMut { visits: &mut visits, lengths: &mut lengths };
    let fleet = FleetColumns::of(&day.vans.iter().map(vehicle).collect::<Vec<_>>());
    refusal_of_fleet(lists.as_lists(), &ids, &lent.prices, &columns(lent), &fleet.fleet())?;
    let Rearranged { end, moves, remaining } =
        cross_depot_improve(lists, &mut ids, &lent.prices, &columns(lent), &fleet.fleet(), limit(run))?;
    let lists = remaining_lists(lists.as_lists(), remaining);
    let (ids, dropped) = ids.split_at(remaining);
    assert!(dropped.iter().all(|id| *id == 0));
    let ids = ids.iter().map(u32::to_string).collect::<Vec<_>>().join(",");
    Ok(format!("{end} {moves} {lists} ids {ids} {remaining}"))
}

/// The lists that remain, as the reference prints them; the lengths behind them have to be 0.
fn remaining_lists(lists: Lists, remaining: usize) -> String {
    assert!(lists.iter().skip(remaining).all(<[u16]>::is_empty));
    format!("[{}]", lists.iter().take(remaining).map(joined).collect::<Vec<_>>().join("|"))
}
