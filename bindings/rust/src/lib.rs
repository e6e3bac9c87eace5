//! The planner of visit lists in safe Rust, over its static library (`rt lib` in crates/planner_c). Nothing is allocated or copied:
//! columns, tables and lists stay the caller's, and an engine changes the lists in place.
//!
//! Functions have u-routing's names, and its arguments in its order, where they can be kept: the route or solution first (here
//! the lists and, within one list, its number), then customers and distances (here one [`Day`]), then the vehicle, which has the
//! depot, the limits and the break. The limit on moves, which u-routing doesn't have, comes last. Every function takes any
//! numbers and answers a result or one of document 01's refusals; then nothing is changed.
//!
//! ```
//! use planner::{two_opt_improve, Day, End, Improved, ListsMut, Refusal, Vehicle, DEPOT};
//!
//! // Places 0 to 3 at 0, 10, 20, 30 on a line; the depot is place 0.
//! let mut distances = [0.0; 16];
//! for (k, distance) in distances.iter_mut().enumerate() {
//!     *distance = 10.0 * (k / 4).abs_diff(k % 4) as f64;
//! }
//! let day = Day {
//!     flags: &[DEPOT, 0, 0, 0],
//!     demand: &[0, 1, 1, 1],
//!     service: &[0.0; 4],
//!     ready: &[0.0; 4],
//!     due: &[0.0; 4],
//!     penalty: &[0.0; 4],
//!     distances: &distances,
//!     times: &[],
//! };
//! let (mut visits, mut lengths) = ([2, 1, 3], [3]);
//! let mut lists = ListsMut { visits: &mut visits, lengths: &mut lengths };
//!
//! let answer = two_opt_improve(&mut lists, 0, &day, &Vehicle::new(0, 3), 100);
//! assert_eq!(answer, Ok(Improved { end: End::Settled, moves: 1, distance: 60.0 }));
//! assert_eq!(visits, [1, 2, 3]);
//!
//! let (mut visits, mut lengths) = ([2, 1, 2], [3]);
//! let mut lists = ListsMut { visits: &mut visits, lengths: &mut lengths };
//! let answer = two_opt_improve(&mut lists, 0, &day, &Vehicle::new(0, 3), 100);
//! assert_eq!(answer, Err(Refusal::Twice));
//! assert_eq!(Refusal::Twice.to_string(), "refused 10, lists: an office twice, in one list or two");
//! ```
#![no_std]
#![deny(unsafe_code, missing_docs)]
#![deny(clippy::unwrap_used, clippy::expect_used, clippy::panic, clippy::indexing_slicing, clippy::arithmetic_side_effects)]

mod checks;
mod day;
mod fleet;
mod improve;
#[allow(unsafe_code)]
mod library;
mod lists;
mod rearrange;
mod refusal;
mod vehicle;

pub use checks::{route_distance, route_eval, route_feasible, schedule, table_of, RouteEval, Scheduled, Table};
pub use day::{Day, DEPOT, PENALTY, WINDOW};
pub use fleet::{cross_depot_improve, refusal_of_fleet, Fleet, FleetColumns};
pub use improve::{or_opt_improve, three_opt_improve, two_opt_improve, End, Improved};
pub use lists::{Lists, ListsMut};
pub use rearrange::{exchange_improve, relocate_improve, relocate_improve_unpruned, Rearranged};
pub use refusal::{refusal_of, refusal_of_lists, Refusal};
pub use vehicle::{Vehicle, VehicleBreak};
