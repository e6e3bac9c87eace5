//! Why a call is refused. A refused call changes nothing, and an input free of these faults is never refused.
use crate::library::{planner_refusal, planner_refusal_of_lists};
use crate::{Day, Lists, Vehicle};
use core::error::Error;
use core::fmt::{self, Display, Formatter};

macro_rules! refusals {
    ($($name:ident = $number:literal, $place:literal, $when:literal;)*) => {
        /// The least number of document 01's table that applies, but that cross-depot tests 11 before 6.
        #[derive(Clone, Copy, Debug, PartialEq, Eq, PartialOrd, Ord, Hash)]
        #[repr(u8)]
        pub enum Refusal {
            $(#[doc = concat!($number, ", ", $place, ": ", $when, ".")] $name = $number,)*
        }

        impl Refusal {
            /// All of them, by number.
            pub const ALL: [Refusal; 12] = [$(Refusal::$name),*];

            /// What is refused: the day, the van, the lists or the fleet.
            pub const fn place(self) -> &'static str {
                match self { $(Refusal::$name => $place,)* }
            }

            /// When it is refused, in document 01's words.
            pub const fn when(self) -> &'static str {
                match self { $(Refusal::$name => $when,)* }
            }
        }
    };
}

refusals! {
    Locations = 1, "day", "L is 0 or over 64";
    TableLength = 2, "day", "a table's length is wrong for L";
    Distance = 3, "day", "a distance or time isn't plain";
    Location = 4, "day", "demand out of range; service, or a present penalty, not plain; flag bits 3 to 7 set; \
        a depot flag after an unflagged location";
    Window = 5, "day", "a present ready or due isn't plain, or ready is above due";
    Depot = 6, "van", "its depot isn't a depot location";
    Van = 7, "van", "capacity, a cost, a present limit or break number out of range (plain unless said); \
        latest below earliest; flag bits 3 to 7 set";
    Lengths = 8, "lists", "over 16 lists, lengths that don't add up to the visit table, any list longer than 63, \
        or a list asked for by a number (from 0) not below their count";
    Visit = 9, "lists", "a visit not below L, or a depot";
    Twice = 10, "lists", "an office twice, in one list or two";
    Fleet = 11, "fleet", "over 16 vans, or list columns not one entry a list";
    Price = 12, "fleet", "a starting price isn't plain";
}

impl Refusal {
    /// Document 01's number, 1 to 12.
    pub const fn number(self) -> u8 {
        self as u8
    }

    /// Reads what the library answers: 0, or a number up to 12. A number above, which no entry answers, would be an error too.
    pub(crate) fn read(answer: u8) -> Result<(), Refusal> {
        if answer == 0 {
            return Ok(());
        }
        let refusal = Refusal::ALL.into_iter().find(|refusal| refusal.number() == answer);
        Err(refusal.unwrap_or(Refusal::Price))
    }
}

impl Display for Refusal {
    fn fmt(&self, text: &mut Formatter<'_>) -> fmt::Result {
        write!(text, "refused {}, {}: {}", self.number(), self.place(), self.when())
    }
}

impl Error for Refusal {}

/// Whether a call that asks for this list is refused.
pub fn refusal_of(lists: Lists<'_>, list: usize, day: &Day<'_>, vehicle: &Vehicle) -> Result<(), Refusal> {
    Refusal::read(planner_refusal(day, *vehicle, lists.visits, lists.lengths, list))
}

/// Whether a call over all lists is refused.
pub fn refusal_of_lists(lists: Lists<'_>, day: &Day<'_>, vehicle: &Vehicle) -> Result<(), Refusal> {
    Refusal::read(planner_refusal_of_lists(day, *vehicle, lists.visits, lists.lengths))
}
