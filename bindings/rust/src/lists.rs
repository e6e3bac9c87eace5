//! The lists of visits, one after another in one table, with a second table of their lengths.

/// At most 16 lists of at most 63 visits. A visit is a location that is no depot, and none is visited twice.
#[derive(Clone, Copy, Debug)]
pub struct Lists<'a> {
    /// All visits, list by list.
    pub visits: &'a [u16],
    /// How many visits each list has.
    pub lengths: &'a [u16],
}

/// Lists that an engine changes in place.
#[derive(Debug)]
pub struct ListsMut<'a> {
    /// All visits, list by list.
    pub visits: &'a mut [u16],
    /// How many visits each list has.
    pub lengths: &'a mut [u16],
}

impl<'a> Lists<'a> {
    /// The lists one by one. Where the lengths say more than the visits there are, they end.
    pub fn iter(&self) -> impl Iterator<Item = &'a [u16]> + use<'a> {
        self.lengths.iter().scan(self.visits, |rest, length| {
            let (list, behind) = rest.split_at_checked(usize::from(*length))?;
            *rest = behind;
            Some(list)
        })
    }

    /// The list of this number, from 0.
    pub fn get(&self, number: usize) -> Option<&'a [u16]> {
        self.iter().nth(number)
    }
}

impl ListsMut<'_> {
    /// The same lists, to read.
    pub fn as_lists(&self) -> Lists<'_> {
        Lists { visits: self.visits, lengths: self.lengths }
    }
}
