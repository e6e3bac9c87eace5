//! port: reads days in the text format from standard input and prints one line a run, as the reference does, over the
//! static library; `ENGINE refused N` where that refuses. Lines `trim`, `size` and `length` (days/text.rs) change what is
//! lent. It says `ENGINE wrote ..` where the library wrote an answer that it must leave, `a lent table
//! was written` behind the day's lines where it did that, and `ENGINE unknown` of a run it doesn't know.
#[path = "../days/mod.rs"]
mod days;
mod planner;
use days::day::{Day, Lent, Run};
use days::text::{hex, Reader};
use planner::*;
use std::io::{Read, Write};

/// What stands in an answer's place before a call: numbers that no run answers.
const UNWRITTEN: f64 = -123.456;
const UNWRITTEN_BYTE: u8 = 0xa5;
const UNWRITTEN_SIZE: usize = usize::MAX - 5;

/// One call: what is lent, and the run.
struct Call<'a> {
    lent: &'a Lent,
    van: Van,
    run: &'a Run,
}

fn main() {
    let mut text = String::new();
    if std::io::stdin().read_to_string(&mut text).is_err() {
        end("the input is no text");
    }
    let mut reader = Reader::new(&text);
    let mut out = std::io::stdout().lock();
    loop {
        let lines = match reader.day() {
            Ok(Some(day)) => answers(&day),
            Ok(None) => return,
            Err(what) => end(&what),
        };
        if out.write_all(lines.as_bytes()).is_err() {
            return;
        }
    }
}

fn end(what: &str) -> ! {
    eprintln!("port: {what}");
    std::process::exit(2)
}

/// The lines of a day's runs.
fn answers(day: &Day) -> String {
    let lent = Lent::of(day);
    let copy = lent.clone();
    let mut lines = String::new();
    for run in &day.runs {
        lines.push_str(&run.engine);
        lines.push(' ');
        lines.push_str(&match (run.engine.as_str(), day.vans.first()) {
            ("cross", _) => cross(&lent, run),
            ("refusal_of_fleet", _) => {
                numbered(call_of_fleet!(planner_refusal_of_fleet, lent, lent.visits.as_ptr(), lent.lengths.as_ptr(), lent.van_ids.as_ptr()))
            }
            (_, Some(van)) => answer(&Call { lent: &lent, van: Van::of(van), run }),
            (_, None) => "has no van".to_string(),
        });
        lines.push('\n');
    }
    if !untouched(&lent, &copy) {
        lines.push_str("a lent table was written\n");
    }
    lines
}

/// What stands in a count's place before a call.
const UNWRITTEN_COUNT: u32 = u32::MAX - 5;

/// A run that changes one list, on a copy of what is lent.
macro_rules! within {
    ($name:ident, $call:expr) => {{
        let mut lent = $call.lent.clone();
        let mut settled = UNWRITTEN_BYTE;
        let mut moves = UNWRITTEN_COUNT;
        let mut distance = UNWRITTEN;
        let refusal = call!($name, lent, $call.van, lent.visits.as_mut_ptr(), lent.visits.len(), lent.lengths.as_ptr(),
            lent.lengths.len(), $call.run.list as usize, limit_of($call.run), &mut settled, &mut moves, &mut distance);
        within_line($call, &lent, refusal, settled, moves, distance)
    }};
}

/// The limit of a run; none is more than any run makes.
fn limit_of(run: &Run) -> u32 {
    u32::try_from(run.limit).unwrap_or(u32::MAX)
}

/// The line of a run that changed one list: every other list has to be as it was.
fn within_line(call: &Call, lent: &Lent, refusal: u8, settled: u8, moves: u32, distance: f64) -> String {
    if refusal != 0 {
        let nothing = settled == UNWRITTEN_BYTE && moves == UNWRITTEN_COUNT && unwritten(&[distance]);
        return refused(refusal, nothing && untouched(lent, call.lent));
    }
    let list = call.run.list as usize;
    let start: usize = lent.lengths[..list].iter().map(|n| *n as usize).sum();
    let end = start + lent.lengths[list] as usize;
    let mut others = lent.clone();
    others.visits[start..end].copy_from_slice(&call.lent.visits[start..end]);
    if !untouched(&others, call.lent) {
        return "changed another list".to_string();
    }
    let word = ["stopped", "settled"].get(settled as usize).copied().unwrap_or("no word");
    format!("{word} {moves} {} [{}]", hex(distance), joined(&lent.visits[start..end]))
}

/// A run that changes all lists, on a copy of what is lent.
macro_rules! across {
    ($name:ident, $call:expr $(, $more:expr)*) => {{
        let mut lent = $call.lent.clone();
        let mut settled = UNWRITTEN_BYTE;
        let mut moves = UNWRITTEN_COUNT;
        let mut remaining = UNWRITTEN_SIZE;
        let refusal = call!($name, lent, $call.van, lent.visits.as_mut_ptr(), lent.visits.len(), lent.lengths.as_mut_ptr(),
            lent.lengths.len(), limit_of($call.run) $(, $more)*, &mut settled, &mut moves, &mut remaining);
        across_line($call, &lent, refusal, settled, moves, remaining)
    }};
}

/// How a run over all lists ended.
struct Ended {
    refusal: u8,
    settled: u8,
    moves: u32,
    remaining: usize,
}

/// The line of a run that changed all lists.
fn across_line(call: &Call, lent: &Lent, refusal: u8, settled: u8, moves: u32, remaining: usize) -> String {
    let mut others = lent.clone();
    others.visits = call.lent.visits.clone();
    others.lengths = call.lent.lengths.clone();
    lists_line(call.lent, lent, &others, &Ended { refusal, settled, moves, remaining }, "")
}

/// Cross-depot's run, on a copy of what is lent; the van ids behind the lists that remain have to be 0 too.
fn cross(before: &Lent, run: &Run) -> String {
    let mut lent = before.clone();
    let mut ended = Ended { refusal: 0, settled: UNWRITTEN_BYTE, moves: UNWRITTEN_COUNT, remaining: UNWRITTEN_SIZE };
    ended.refusal = call_of_fleet!(planner_cross_depot_improve, lent, lent.visits.as_mut_ptr(), lent.lengths.as_mut_ptr(),
        lent.van_ids.as_mut_ptr(), limit_of(run), &mut ended.settled, &mut ended.moves, &mut ended.remaining);
    let mut others = lent.clone();
    others.visits = before.visits.clone();
    others.lengths = before.lengths.clone();
    others.van_ids = before.van_ids.clone();
    let (kept, dropped) = lent.van_ids.split_at(ended.remaining.min(lent.van_ids.len()));
    if ended.refusal == 0 && dropped.iter().any(|id| *id != 0) {
        return "left an id of a dropped list".to_string();
    }
    let ids = kept.iter().map(u32::to_string).collect::<Vec<_>>().join(",");
    lists_line(before, &lent, &others, &ended, &format!(" ids {ids}"))
}

/// The line of a run over all lists: what was lent, what stands there now, the same with all that may change put back. The
/// lengths behind the lists that remain have to be 0.
fn lists_line(before: &Lent, lent: &Lent, others: &Lent, ended: &Ended, more: &str) -> String {
    let &Ended { refusal, settled, moves, remaining } = ended;
    if refusal != 0 {
        let nothing = settled == UNWRITTEN_BYTE && moves == UNWRITTEN_COUNT && remaining == UNWRITTEN_SIZE;
        return refused(refusal, nothing && untouched(lent, before));
    }
    if !untouched(others, before) || remaining > lent.lengths.len() || lent.lengths[remaining..].iter().any(|n| *n != 0) {
        return "left the tables wrong".to_string();
    }
    let mut start = 0;
    let mut lists = Vec::new();
    for n in &lent.lengths[..remaining] {
        let end = start + *n as usize;
        lists.push(joined(lent.visits.get(start..end).unwrap_or(&[])));
        start = end;
    }
    let word = ["stopped", "settled"].get(settled as usize).copied().unwrap_or("no word");
    format!("{word} {moves} [{}]{more} {remaining}", lists.join("|"))
}

/// Visits as the reference prints them.
fn joined(visits: &[u16]) -> String {
    visits.iter().map(u16::to_string).collect::<Vec<_>>().join(",")
}

/// A function for each kind of run. One that changes tables takes its own copy of what is lent.
fn answer(call: &Call) -> String {
    match call.run.engine.as_str() {
        "feasible" => feasible(call),
        "eval" => eval(call),
        "schedule" => schedule(call),
        "distance" => distance(call),
        "table" => table(call),
        "two_opt" => within!(planner_two_opt_improve, call),
        "or_opt" => within!(planner_or_opt_improve, call),
        "three_opt" => within!(planner_three_opt_improve, call),
        "relocate" => across!(planner_relocate_improve, call, 1),
        "relocate_np" => across!(planner_relocate_improve, call, 0),
        "exchange" => across!(planner_exchange_improve, call),
        "refusal" => numbered(call!(planner_refusal, call.lent, call.van, call.lent.visits.as_ptr(), call.lent.visits.len(),
            call.lent.lengths.as_ptr(), call.lent.lengths.len(), call.run.list as usize)),
        "refusal_of_lists" => numbered(call!(planner_refusal_of_lists, call.lent, call.van, call.lent.visits.as_ptr(),
            call.lent.visits.len(), call.lent.lengths.as_ptr(), call.lent.lengths.len())),
        _ => "unknown".to_string(),
    }
}

/// The line of a run that answers a refusal's number alone.
fn numbered(number: u8) -> String {
    if number == 0 { "0".to_string() } else { refused(number, true) }
}

/// The line of a refusal; the answers' places must be as they were.
fn refused(number: u8, unwritten: bool) -> String {
    if unwritten {
        format!("refused {number}")
    } else {
        format!("wrote an answer, and refused {number}")
    }
}

fn unwritten(numbers: &[f64]) -> bool {
    numbers.iter().all(|number| number.to_bits() == UNWRITTEN.to_bits())
}

fn hexes(numbers: &[f64]) -> String {
    numbers.iter().map(|number| hex(*number)).collect::<Vec<_>>().join(" ")
}

fn feasible(call: &Call) -> String {
    let mut passes = UNWRITTEN_BYTE;
    let refusal = call_of_list!(planner_route_feasible, call.lent, call.van, call.run.list, &mut passes);
    if refusal != 0 {
        return refused(refusal, passes == UNWRITTEN_BYTE);
    }
    passes.to_string()
}

fn distance(call: &Call) -> String {
    let mut distance = UNWRITTEN;
    let refusal = call_of_list!(planner_route_distance, call.lent, call.van, call.run.list, &mut distance);
    if refusal != 0 {
        return refused(refusal, unwritten(&[distance]));
    }
    hex(distance)
}

fn eval(call: &Call) -> String {
    let mut passes = UNWRITTEN_BYTE;
    let [mut distance, mut duration, mut lateness, mut cost] = [UNWRITTEN; 4];
    let refusal = call_of_list!(planner_route_eval, call.lent, call.van, call.run.list, &mut passes, &mut distance,
        &mut duration, &mut lateness, &mut cost);
    let numbers = [distance, duration, lateness, cost];
    if refusal != 0 {
        return refused(refusal, passes == UNWRITTEN_BYTE && unwritten(&numbers));
    }
    match passes {
        0 if unwritten(&numbers) => "none".to_string(),
        0 => "wrote numbers, and none".to_string(),
        1 => format!("some {}", hexes(&numbers)),
        _ => format!("passes {passes}"),
    }
}

fn schedule(call: &Call) -> String {
    let [mut found, mut taken] = [UNWRITTEN_BYTE; 2];
    let mut position = UNWRITTEN_SIZE;
    let [mut distance, mut duration, mut lateness, mut cost, mut start] = [UNWRITTEN; 5];
    let refusal = call_of_list!(planner_schedule, call.lent, call.van, call.run.list, &mut found, &mut distance,
        &mut duration, &mut lateness, &mut cost, &mut taken, &mut position, &mut start);
    let numbers = [distance, duration, lateness, cost];
    let no_place = position == UNWRITTEN_SIZE && unwritten(&[start]);
    let nothing = taken == UNWRITTEN_BYTE && no_place && unwritten(&numbers);
    if refusal != 0 {
        return refused(refusal, found == UNWRITTEN_BYTE && nothing);
    }
    match (found, taken) {
        (0, _) if nothing => "none".to_string(),
        (0, _) => "wrote numbers, and none".to_string(),
        (1, 0) if no_place => format!("some {} - -", hexes(&numbers)),
        (1, 1) => format!("some {} {position} {}", hexes(&numbers), hex(start)),
        _ => format!("found {found} taken {taken} position {position} start {}", hex(start)),
    }
}

fn table(call: &Call) -> String {
    let mut symmetric = UNWRITTEN_BYTE;
    let mut depots = UNWRITTEN_SIZE;
    let [mut scale, mut floor, mut fixed] = [UNWRITTEN; 3];
    let refusal = call!(planner_table, call.lent, call.van, &mut scale, &mut floor, &mut symmetric, &mut fixed, &mut depots);
    if refusal != 0 {
        let nothing = symmetric == UNWRITTEN_BYTE && depots == UNWRITTEN_SIZE && unwritten(&[scale, floor, fixed]);
        return refused(refusal, nothing);
    }
    format!("scale {} floor {} symmetric {symmetric} fixed {} depots {depots}", hex(scale), hex(floor), hex(fixed))
}
