//! Makes a day on which two programs differ as small as it can: whatever can be left out or made simpler, with the
//! difference staying, is.
use crate::days::day::{Day, Van};

/// How many smaller days are tried at a time.
const AT_ONCE: usize = 40;

/// Beyond this many locations single numbers aren't tried.
const FEW: usize = 12;
/// The most steps taken.
const STEPS: usize = 500;

type Steps = fn(&Day, &mut Vec<Day>);

/// The smallest day found on which `differ` holds. It takes days by the dozen, since each call starts the programs.
pub fn shrink(day: &Day, differ: &dyn Fn(&[Day]) -> Vec<bool>) -> Day {
    let mut current = day.clone();
    for _ in 0..STEPS {
        match smaller(&current, differ) {
            Some(next) => current = next,
            None => break,
        }
    }
    current
}

/// A day that is smaller by one step, the greatest steps first.
fn smaller(day: &Day, differ: &dyn Fn(&[Day]) -> Vec<bool>) -> Option<Day> {
    let kinds: [Steps; 6] = [fewer_lists, fewer_places, fewer_flags, simpler_columns, simpler_numbers, simpler_counts];
    kinds.iter().find_map(|steps| {
        let mut days = Vec::new();
        steps(day, &mut days);
        days.chunks(AT_ONCE).find_map(|chunk| first(chunk, differ))
    })
}

fn first(days: &[Day], differ: &dyn Fn(&[Day]) -> Vec<bool>) -> Option<Day> {
    differ(days).iter().position(|differs| *differs).map(|place| days[place].clone())
}

fn with(day: &Day, days: &mut Vec<Day>, edit: impl FnOnce(&mut Day)) {
    let mut next = day.clone();
    edit(&mut next);
    days.push(next);
}

fn drop_list(day: &mut Day, list: usize) {
    day.lists.remove(list);
    day.van_ids.remove(list);
    day.prices.remove(list);
    for run in &mut day.runs {
        run.list -= u64::from(run.list > list as u64);
    }
}

fn fewer_lists(day: &Day, days: &mut Vec<Day>) {
    for run in 0..if day.runs.len() > 1 { day.runs.len() } else { 0 } {
        with(day, days, |next| next.runs = vec![day.runs[run].clone()]);
    }
    for change in 0..day.changes.len() {
        with(day, days, |next| drop(next.changes.remove(change)));
    }
    for list in 0..day.lists.len() {
        if day.lists.len() > 1 {
            with(day, days, |next| drop_list(next, list));
        }
        let visits = day.lists[list].len();
        if visits > 3 {
            with(day, days, |next| drop(next.lists[list].drain(visits / 2..)));
            with(day, days, |next| drop(next.lists[list].drain(..visits / 2)));
        }
        for position in 0..visits {
            with(day, days, |next| {
                next.lists[list].remove(position);
            });
        }
    }
    for van in 0..if day.vans.len() > 1 { day.vans.len() } else { 0 } {
        with(day, days, |next| drop(next.vans.remove(van)));
    }
    for run in 0..day.runs.len() {
        if day.runs[run].limit < 0 {
            with(day, days, |next| next.runs[run].limit = 1000);
        }
        if day.runs[run].limit > 0 {
            with(day, days, |next| next.runs[run].limit /= 2);
            with(day, days, |next| next.runs[run].limit -= 1);
        }
    }
}

/// The day without that location, which no list visits.
fn without_place(day: &Day, place: usize) -> Day {
    let mut next = day.clone();
    let locations = day.locations();
    next.flags.remove(place);
    next.demand.remove(place);
    for column in [&mut next.service, &mut next.ready, &mut next.due, &mut next.penalty] {
        column.remove(place);
    }
    for table in [&mut next.distances, &mut next.times] {
        let mut entry = 0;
        table.retain(|_| {
            entry += 1;
            (entry - 1) / locations != place && (entry - 1) % locations != place
        });
    }
    for visit in next.lists.iter_mut().flatten() {
        *visit -= u16::from(usize::from(*visit) > place);
    }
    for van in &mut next.vans {
        van.depot -= u64::from(van.depot > place as u64);
    }
    next
}

fn fewer_places(day: &Day, days: &mut Vec<Day>) {
    for place in (0..day.locations()).rev() {
        let visited = day.lists.iter().flatten().any(|visit| usize::from(*visit) == place);
        let starts = day.vans.iter().any(|van| van.depot == place as u64);
        if !visited && !starts && day.locations() > 1 {
            days.push(without_place(day, place));
        }
    }
    if !day.times.is_empty() {
        with(day, days, |next| next.times.clear());
        with(day, days, |next| next.distances = std::mem::take(&mut next.times));
    }
}

fn fewer_flags(day: &Day, days: &mut Vec<Day>) {
    for place in 0..day.locations() {
        for bit in 0..8 {
            if day.flags[place] >> bit & 1 != 0 {
                with(day, days, |next| next.flags[place] ^= 1 << bit);
            }
        }
    }
    for van in 0..day.vans.len() {
        for bit in 0..8 {
            if day.vans[van].flags >> bit & 1 != 0 {
                with(day, days, |next| next.vans[van].flags ^= 1 << bit);
            }
        }
    }
}

/// A whole column or table at zero, or made whole.
fn simpler_columns(day: &Day, days: &mut Vec<Day>) {
    for column in 0..columns(&mut day.clone()).len() {
        let values: Vec<f64> = columns(&mut day.clone())[column].to_vec();
        let whole: Vec<f64> = values.iter().map(|value| value.floor()).collect();
        let small: Vec<f64> = whole.iter().map(|value| value.min(9.0)).collect();
        for simple in [vec![0.0; values.len()], whole, small] {
            let changed = simple.iter().zip(&values).any(|(new, old)| rank(*new) < rank(*old));
            let worse = simple.iter().zip(&values).any(|(new, old)| rank(*new) > rank(*old));
            if changed && !worse {
                with(day, days, |next| columns(next)[column].copy_from_slice(&simple));
            }
        }
    }
}

fn columns(day: &mut Day) -> [&mut [f64]; 7] {
    [&mut day.service, &mut day.ready, &mut day.due, &mut day.penalty, &mut day.distances, &mut day.times, &mut day.prices]
}

fn van_numbers(van: &mut Van) -> [&mut f64; 7] {
    let Van { cost_per_distance, fixed_cost, max_distance, max_duration, earliest, latest, duration, .. } = van;
    [cost_per_distance, fixed_cost, max_distance, max_duration, earliest, latest, duration]
}

/// How simple a number is: zero, one, whole by size, a power of two, any other.
fn rank(number: f64) -> (u8, u64) {
    if number.to_bits() == 0 {
        (0, 0)
    } else if number == 1.0 {
        (1, 0)
    } else if number > 0.0 && number.fract() == 0.0 {
        (2, number.to_bits())
    } else if number > 0.0 && number.is_normal() && number.to_bits() << 12 == 0 {
        (3, 0)
    } else {
        (4, 0)
    }
}

/// Numbers to try in that one's place, all simpler.
fn simpler(number: f64) -> Vec<f64> {
    let power = f64::from_bits(number.to_bits() >> 52 << 52);
    let less = if number < 100.0 { number - 1.0 } else { power };
    let tries = [0.0, 1.0, 2.0, 10.0, number.floor(), number.ceil(), (number / 2.0).floor(), less, power, 2.0 * power];
    tries.into_iter().filter(|new| rank(*new) < rank(number)).collect()
}

fn simpler_numbers(day: &Day, days: &mut Vec<Day>) {
    if day.locations() > FEW {
        return;
    }
    for column in 0..columns(&mut day.clone()).len() {
        let values: Vec<f64> = columns(&mut day.clone())[column].to_vec();
        for (place, value) in values.into_iter().enumerate() {
            for new in simpler(value) {
                with(day, days, |next| columns(next)[column][place] = new);
            }
        }
    }
    for van in 0..day.vans.len() {
        for field in 0..7 {
            for new in simpler(*van_numbers(&mut day.vans[van].clone())[field]) {
                with(day, days, |next| *van_numbers(&mut next.vans[van])[field] = new);
            }
        }
    }
}

/// Demands, capacities and ids made smaller.
fn simpler_counts(day: &Day, days: &mut Vec<Day>) {
    let smaller = |count: i32| [0, 1, count / 2].into_iter().filter(move |new| *new < count);
    for van in 0..day.vans.len() {
        for capacity in smaller(day.vans[van].capacity) {
            with(day, days, |next| next.vans[van].capacity = capacity);
        }
        if day.vans[van].id > 0 {
            with(day, days, |next| next.vans[van].id = 0);
        }
    }
    for list in 0..day.van_ids.len() {
        if day.van_ids[list] > 0 {
            with(day, days, |next| next.van_ids[list] = 0);
        }
    }
    for place in 0..day.locations() {
        for demand in smaller(day.demand[place]) {
            with(day, days, |next| next.demand[place] = demand);
        }
    }
}
