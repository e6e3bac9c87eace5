//! Tables of distances and times.
use super::random::Random;
use super::refusal::{LEAST_COST, MOST};

#[derive(Clone, Copy, Debug, PartialEq)]
pub enum Map {
    /// Places 0, 10, 20 .. on a line, in any order, some at one place.
    Line,
    /// Places on a grid of 5 by 5, the distance along its lines: many ties.
    Grid,
    /// Places in the plane.
    Plane,
    /// Whole, the same both ways.
    Whole,
    /// Whole, each way its own.
    WholeOneWay,
    /// 53 random bits below 100, the same both ways.
    Fraction,
    FractionOneWay,
    /// Tenths: sums that round, and ties that rounding parts.
    Tenths,
    Zero,
    /// 1 or 2 each way.
    Ties,
    /// Up to 2^40 and at it.
    Large,
    /// Subnormal, about 2^-1022 and about 2^-20.
    Small,
    /// Any exponent from subnormal to 2^40.
    Mixed,
    /// Whole up to 16,777,216, as demand 3 has it.
    Demand3,
}

pub const MAPS: [Map; 14] = [
    Map::Line,
    Map::Grid,
    Map::Plane,
    Map::Whole,
    Map::WholeOneWay,
    Map::Fraction,
    Map::FractionOneWay,
    Map::Tenths,
    Map::Zero,
    Map::Ties,
    Map::Large,
    Map::Small,
    Map::Mixed,
    Map::Demand3,
];

/// The nearest plain number that this rounds to from below 0 or above 2^40.
pub fn plainly(number: f64) -> f64 {
    if number > 0.0 {
        number.min(MOST)
    } else {
        0.0
    }
}

/// The number itself, one step below or one above, made plain.
pub fn near(number: f64, random: &mut Random) -> f64 {
    let moved = match random.below(3) {
        0 => number.next_down(),
        1 => number.next_up(),
        _ => number,
    };
    plainly(moved)
}

/// A plain number of any exponent.
pub fn any_plain(random: &mut Random) -> f64 {
    let exponent = random.below(1023 + 40);
    f64::from_bits(exponent << 52 | random.next() >> 12)
}

fn large(random: &mut Random) -> f64 {
    match random.below(5) {
        0 => MOST,
        1 => MOST.next_down(),
        2 => (random.unit() * MOST).floor(),
        3 => 1.0 + random.below(9) as f64,
        _ => random.unit() * MOST,
    }
}

fn small(random: &mut Random) -> f64 {
    match random.below(6) {
        0 => f64::from_bits(1 + random.below(3)),
        1 => f64::from_bits(random.next() >> 12),
        2 => f64::MIN_POSITIVE,
        3 => near(f64::MIN_POSITIVE, random),
        4 => near(LEAST_COST, random),
        _ => random.unit() * LEAST_COST,
    }
}

/// One leg of a map that isn't laid out on places.
fn leg(map: Map, random: &mut Random) -> f64 {
    match map {
        Map::Whole | Map::WholeOneWay => random.below(100) as f64,
        Map::Fraction | Map::FractionOneWay => random.unit() * 100.0,
        Map::Tenths => random.below(30) as f64 / 10.0,
        Map::Ties => 1.0 + random.below(2) as f64,
        Map::Large => large(random),
        Map::Small => small(random),
        Map::Mixed => any_plain(random),
        Map::Demand3 => match random.below(3) {
            0 => random.below(1 << 24) as f64,
            1 => 16_777_216.0 - random.below(3) as f64,
            _ => random.below(50) as f64,
        },
        _ => 0.0,
    }
}

fn between(map: Map, from: (f64, f64), to: (f64, f64)) -> f64 {
    let (across, along) = ((from.0 - to.0).abs(), (from.1 - to.1).abs());
    if map == Map::Plane {
        (across * across + along * along).sqrt()
    } else {
        across + along
    }
}

fn place(map: Map, random: &mut Random) -> (f64, f64) {
    match map {
        Map::Line => (10.0 * random.below(20) as f64, 0.0),
        Map::Grid => (random.below(5) as f64, random.below(5) as f64),
        _ => (random.unit() * 100.0, random.unit() * 100.0),
    }
}

/// A table of that many places; `own` says that a place may lie at a distance from itself.
pub fn table(map: Map, places: usize, own: bool, random: &mut Random) -> Vec<f64> {
    let mut table = vec![0.0; places * places];
    if matches!(map, Map::Line | Map::Grid | Map::Plane) {
        let at: Vec<(f64, f64)> = (0..places).map(|_| place(map, random)).collect();
        for (entry, distance) in table.iter_mut().enumerate() {
            *distance = between(map, at[entry / places], at[entry % places]);
        }
        return table;
    }
    let one_way = matches!(map, Map::WholeOneWay | Map::FractionOneWay)
        || (!matches!(map, Map::Whole | Map::Fraction) && random.one_in(2));
    for from in 0..places {
        for to in from..places {
            if from == to && !own {
                continue;
            }
            table[from * places + to] = leg(map, random);
            table[to * places + from] = if one_way { leg(map, random) } else { table[from * places + to] };
        }
    }
    table
}
