//! The fleet, and moves between lists of vans from different depots.
use crate::library::{planner_cross_depot_improve, planner_refusal_of_fleet};
use crate::rearrange::Written;
use crate::{Day, Lists, ListsMut, Rearranged, Refusal, Vehicle};

/// One more than a fleet may have, so that a fleet of too many stays one.
const MOST: usize = 17;

macro_rules! fleet {
    ($($(#[$words:meta])* $column:ident: $entry:ty = $field:ident;)*) => {
        /// At most 16 vans by column, each with one entry a van. [`FleetColumns`] makes it of vehicles.
        #[derive(Clone, Copy, Debug)]
        pub struct Fleet<'a> {
            $($(#[$words])* pub $column: &'a [$entry],)*
        }

        /// The columns of a fleet, copied from its vehicles.
        #[derive(Clone, Copy, Debug)]
        pub struct FleetColumns {
            count: usize,
            $($column: [$entry; MOST],)*
        }

        impl FleetColumns {
            /// The columns of these vehicles. Of too many it keeps 17, which is refused as well.
            pub fn of(vehicles: &[Vehicle]) -> FleetColumns {
                let mut columns = FleetColumns { count: vehicles.len().min(MOST), $($column: [<$entry>::default(); MOST]),* };
                $(for (entry, vehicle) in columns.$column.iter_mut().zip(vehicles) {
                    *entry = vehicle.$field;
                })*
                columns
            }

            /// The fleet over these columns.
            pub fn fleet(&self) -> Fleet<'_> {
                Fleet { $($column: self.$column.get(..self.count).unwrap_or(&self.$column)),* }
            }
        }
    };
}

fleet! {
    /// What a list's van is told by: the first van of that id, and where there is none the first of the fleet.
    van_ids: u32 = id;
    /// The depot locations where their lists start and end.
    depots: usize = depot;
    /// 0 to 2,000,000,000.
    capacities: i32 = capacity;
    /// Plain, and 0 or at least 2^-20.
    distance_costs: f64 = cost_per_distance;
    /// Plain.
    fixed_costs: f64 = fixed_cost;
    /// Bit 0 distance limit, bit 1 duration limit, bit 2 break.
    van_flags: u8 = flags;
    /// The longest distance of one list.
    max_distances: f64 = max_distance;
    /// The latest return.
    max_durations: f64 = max_duration;
    /// When the break starts at the earliest.
    earliest: f64 = earliest;
    /// When it starts at the latest.
    latest: f64 = latest;
    /// How long it takes.
    durations: f64 = duration;
}

/// Whether a call over all lists of a fleet is refused. `ids` has the id of each list's van, `prices` its starting price.
pub fn refusal_of_fleet(lists: Lists<'_>, ids: &[u32], prices: &[f64], day: &Day<'_>, fleet: &Fleet<'_>) -> Result<(), Refusal> {
    Refusal::read(planner_refusal_of_fleet(day, fleet, lists.visits, lists.lengths, ids, prices))
}

/// Moves visits between lists of vans from different depots while that lowers the cost, by at most `limit` moves.
///
/// `ids` has the id of each list's van; handed back it has that of the van found for each list, and 0 behind those that remain.
/// `prices` has what each list counts at the start: its distance and the cost of its lateness. Empty lists are dropped only after a
/// move; with fewer than two lists, or no van, all stays as it is.
pub fn cross_depot_improve(
    lists: &mut ListsMut<'_>,
    ids: &mut [u32],
    prices: &[f64],
    day: &Day<'_>,
    fleet: &Fleet<'_>,
    limit: u32,
) -> Result<Rearranged, Refusal> {
    let mut written = Written::default();
    let Written { settled, moves, remaining } = &mut written;
    let answer = planner_cross_depot_improve(day, fleet, lists.visits, lists.lengths, ids, prices, limit, settled, moves, remaining);
    written.read(answer)
}
