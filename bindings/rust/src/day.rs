//! The day: its locations by column, and how far they are apart.

/// In [`Day::flags`]: the location is a depot.
pub const DEPOT: u8 = 1;
/// In [`Day::flags`]: the location has a time window, `ready` to `due`.
pub const WINDOW: u8 = 2;
/// In [`Day::flags`]: being late costs `penalty` for each unit of time, so that the window is soft.
pub const PENALTY: u8 = 4;

/// A day of 1 to 64 locations, as many as `flags` has entries; every column has one entry for each of them.
///
/// A number is *plain* if its sign bit is clear and it is finite and at most 2^40. A value whose flag is off is never read.
#[derive(Clone, Copy, Debug)]
pub struct Day<'a> {
    /// [`DEPOT`], [`WINDOW`] and [`PENALTY`] added up. The depots lead; with none flagged, location 0 is the depot.
    pub flags: &'a [u8],
    /// 0 to 1,000,000.
    pub demand: &'a [i32],
    /// Time at the stop, plain.
    pub service: &'a [f64],
    /// When the window opens, plain.
    pub ready: &'a [f64],
    /// When it closes, plain and at least `ready`.
    pub due: &'a [f64],
    /// Cost of one unit of lateness, plain.
    pub penalty: &'a [f64],
    /// From each location (row) to each (column), plain.
    pub distances: &'a [f64],
    /// Travel times in the same order; where there are none, the distances serve.
    pub times: &'a [f64],
}
