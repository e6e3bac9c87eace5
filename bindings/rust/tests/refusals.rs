//! One fault or two at a time: every entry that can see it answers document 01's number and changes nothing.
use planner::*;

/// Places 0 to 4 at 0, 10, 20, 30, 40 on a line, the depot at 0; lists 2,1 and 3 of the vans 7 and 8.
#[derive(Clone)]
struct Lent {
    flags: Vec<u8>,
    demand: Vec<i32>,
    service: Vec<f64>,
    ready: Vec<f64>,
    due: Vec<f64>,
    penalty: Vec<f64>,
    distances: Vec<f64>,
    times: Vec<f64>,
    van: Vehicle,
    other_van: Vehicle,
    more_vans: usize,
    visits: Vec<u16>,
    lengths: Vec<u16>,
    list: usize,
    ids: Vec<u32>,
    prices: Vec<f64>,
}

fn line() -> Lent {
    Lent {
        flags: vec![DEPOT, 0, 0, 0, 0],
        demand: vec![1; 5],
        service: vec![0.0; 5],
        ready: vec![0.0; 5],
        due: vec![0.0; 5],
        penalty: vec![0.0; 5],
        distances: (0..25usize).map(|k| 10.0 * (k / 5).abs_diff(k % 5) as f64).collect(),
        times: Vec::new(),
        van: Vehicle::new(7, 3),
        other_van: Vehicle::new(8, 3),
        more_vans: 0,
        visits: vec![2, 1, 3],
        lengths: vec![2, 1],
        list: 0,
        ids: vec![7, 8],
        prices: vec![60.0, 60.0],
    }
}

impl Lent {
    fn day(&self) -> Day<'_> {
        Day {
            flags: &self.flags,
            demand: &self.demand,
            service: &self.service,
            ready: &self.ready,
            due: &self.due,
            penalty: &self.penalty,
            distances: &self.distances,
            times: &self.times,
        }
    }

    fn lists(&self) -> Lists<'_> {
        Lists { visits: &self.visits, lengths: &self.lengths }
    }

    fn fleet(&self) -> FleetColumns {
        let mut vans = vec![self.van, self.other_van];
        vans.resize(2 + self.more_vans, self.other_van);
        FleetColumns::of(&vans)
    }

    /// What an engine answers; where it refuses, lists and ids are as they were.
    fn run<T>(&self, engine: impl Fn(&mut ListsMut, &mut [u32]) -> Result<T, Refusal>) -> Result<(), Refusal> {
        let mut now = self.clone();
        let answer = engine(&mut ListsMut { visits: &mut now.visits, lengths: &mut now.lengths }, &mut now.ids).map(drop);
        assert!(answer.is_ok() || (&now.visits, &now.lengths, &now.ids) == (&self.visits, &self.lengths, &self.ids));
        answer
    }

    /// What the entries answer that ask for a list.
    fn of_list(&self) -> Vec<Result<(), Refusal>> {
        let (lists, list, day, van) = (self.lists(), self.list, self.day(), self.van);
        vec![
            refusal_of(lists, list, &day, &van),
            route_distance(lists, list, &day, &van).map(drop),
            route_feasible(lists, list, &day, &van).map(drop),
            route_eval(lists, list, &day, &van).map(drop),
            schedule(lists, list, &day, &van).map(drop),
            self.run(|lists, _| two_opt_improve(lists, list, &day, &van, 9)),
            self.run(|lists, _| or_opt_improve(lists, list, &day, &van, 9)),
            self.run(|lists, _| three_opt_improve(lists, list, &day, &van, 9)),
        ]
    }

    /// What the entries answer that take all lists of one van.
    fn of_lists(&self) -> Vec<Result<(), Refusal>> {
        let (day, van) = (self.day(), self.van);
        vec![
            refusal_of_lists(self.lists(), &day, &van),
            self.run(|lists, _| relocate_improve(lists, &day, &van, 9)),
            self.run(|lists, _| relocate_improve_unpruned(lists, &day, &van, 9)),
            self.run(|lists, _| exchange_improve(lists, &day, &van, 9)),
        ]
    }

    /// What the entries answer that take a fleet.
    fn of_fleet(&self) -> Vec<Result<(), Refusal>> {
        let (day, columns) = (self.day(), self.fleet());
        vec![
            refusal_of_fleet(self.lists(), &self.ids, &self.prices, &day, &columns.fleet()),
            self.run(|lists, ids| cross_depot_improve(lists, ids, &self.prices, &day, &columns.fleet(), 9)),
        ]
    }

    fn of_table(&self) -> Vec<Result<(), Refusal>> {
        vec![table_of(&self.day(), &self.van).map(drop)]
    }
}

fn assert_all(answers: Vec<Result<(), Refusal>>, expected: Result<(), Refusal>) {
    assert!(answers.iter().all(|answer| *answer == expected), "{answers:?} and not {expected:?}");
}

/// The line with a change.
fn with(change: impl Fn(&mut Lent)) -> Lent {
    let mut lent = line();
    change(&mut lent);
    lent
}

/// A fault of the day, which every entry sees.
fn day_refused(expected: Refusal, change: impl Fn(&mut Lent)) {
    van_refused(expected, &change);
    assert_all(with(change).of_fleet(), Err(expected));
}

/// A fault of the first van, which every entry of one van sees.
fn van_refused(expected: Refusal, change: impl Fn(&mut Lent)) {
    let lent = with(change);
    assert_all(lent.of_table(), Err(expected));
    assert_all(lent.of_list(), Err(expected));
    assert_all(lent.of_lists(), Err(expected));
}

/// A fault of the lists, which every entry but `table_of` sees.
fn lists_refused(expected: Refusal, change: impl Fn(&mut Lent)) {
    let lent = with(change);
    assert_all(lent.of_table(), Ok(()));
    assert_all(lent.of_list(), Err(expected));
    assert_all(lent.of_lists(), Err(expected));
}

/// A fault that a fleet's entries alone see, or see first.
fn fleet_refused(expected: Refusal, change: impl Fn(&mut Lent)) {
    assert_all(with(change).of_fleet(), Err(expected));
}

#[test]
fn nothing_is_refused_of_the_line() {
    let lent = line();
    assert_all(lent.of_table(), Ok(()));
    assert_all(lent.of_list(), Ok(()));
    assert_all(lent.of_lists(), Ok(()));
    assert_all(lent.of_fleet(), Ok(()));
}

#[test]
fn the_day() {
    day_refused(Refusal::Locations, |lent| lent.flags.clear());
    day_refused(Refusal::Locations, |lent| lent.flags.resize(65, 0));
    day_refused(Refusal::TableLength, |lent| lent.demand.push(1));
    day_refused(Refusal::TableLength, |lent| lent.times.push(1.0));
    day_refused(Refusal::Distance, |lent| lent.distances[1] = f64::NAN);
    day_refused(Refusal::Distance, |lent| lent.distances[1] = -0.0);
    day_refused(Refusal::Location, |lent| lent.demand[1] = 1_000_001);
    day_refused(Refusal::Location, |lent| lent.flags[1] = 8);
    day_refused(Refusal::Location, |lent| lent.flags[2] = DEPOT);
    day_refused(Refusal::Location, |lent| (lent.flags[1], lent.penalty[1]) = (PENALTY, f64::INFINITY));
    day_refused(Refusal::Window, |lent| (lent.flags[1], lent.ready[1], lent.due[1]) = (WINDOW, 2.0, 1.0));
}

#[test]
fn the_van() {
    van_refused(Refusal::Depot, |lent| lent.van = lent.van.with_depot(1));
    van_refused(Refusal::Van, |lent| lent.van = Vehicle::new(7, -1));
    van_refused(Refusal::Van, |lent| lent.van = lent.van.with_max_distance(f64::NAN));
    van_refused(Refusal::Van, |lent| lent.van = lent.van.with_break(VehicleBreak::new(20.0, 19.0, 1.0)));
    van_refused(Refusal::Van, |lent| lent.van = lent.van.with_cost_per_distance(1e-9));
}

#[test]
fn the_lists() {
    lists_refused(Refusal::Lengths, |lent| lent.lengths[0] = 3);
    lists_refused(Refusal::Lengths, |lent| lent.lengths.resize(17, 0));
    assert_all(with(|lent| lent.list = 2).of_list(), Err(Refusal::Lengths));
    assert_all(with(|lent| lent.list = 2).of_lists(), Ok(()));
    lists_refused(Refusal::Visit, |lent| lent.visits[0] = 5);
    lists_refused(Refusal::Visit, |lent| lent.visits[2] = 0);
    lists_refused(Refusal::Twice, |lent| lent.visits[2] = 1);
}

#[test]
fn the_fleet() {
    fleet_refused(Refusal::Fleet, |lent| lent.more_vans = 15);
    fleet_refused(Refusal::Fleet, |lent| lent.more_vans = 100);
    assert_all(with(|lent| lent.more_vans = 14).of_fleet(), Ok(()));
    fleet_refused(Refusal::Fleet, |lent| lent.ids.push(7));
    fleet_refused(Refusal::Fleet, |lent| lent.prices.truncate(1));
    fleet_refused(Refusal::Depot, |lent| lent.other_van = lent.other_van.with_depot(1));
    fleet_refused(Refusal::Van, |lent| lent.other_van = Vehicle::new(8, -1));
    fleet_refused(Refusal::Lengths, |lent| lent.lengths[0] = 3);
    fleet_refused(Refusal::Visit, |lent| lent.visits[0] = 5);
    fleet_refused(Refusal::Twice, |lent| lent.visits[2] = 1);
    fleet_refused(Refusal::Price, |lent| lent.prices[1] = -1.0);
}

/// Of two faults the least number is answered, but that the fleet's 11 comes before 6, and 6 of any van before 7.
#[test]
fn the_first_of_two() {
    day_refused(Refusal::Distance, |lent| (lent.distances[1], lent.demand[1], lent.more_vans) = (-1.0, -1, 15));
    van_refused(Refusal::Depot, |lent| lent.van = Vehicle::new(7, -1).with_depot(1));
    van_refused(Refusal::Van, |lent| (lent.van, lent.lengths) = (Vehicle::new(7, -1), vec![9]));
    lists_refused(Refusal::Visit, |lent| lent.visits = vec![1, 1, 0]);
    fleet_refused(Refusal::Fleet, |lent| (lent.van, lent.more_vans) = (lent.van.with_depot(1), 15));
    fleet_refused(Refusal::Depot, |lent| (lent.van, lent.other_van) = (Vehicle::new(7, -1), lent.other_van.with_depot(1)));
    fleet_refused(Refusal::Twice, |lent| (lent.visits[2], lent.prices[0]) = (1, f64::NAN));
}

#[test]
fn each_has_its_number_and_document_01_s_words() {
    let numbers: Vec<u8> = Refusal::ALL.iter().map(|refusal| refusal.number()).collect();
    assert_eq!(numbers, (1..=12).collect::<Vec<u8>>());
    assert_eq!(Refusal::Depot.to_string(), "refused 6, van: its depot isn't a depot location");
    let window = "refused 5, day: a present ready or due isn't plain, or ready is above due";
    assert_eq!(Refusal::Window.to_string(), window);
}
