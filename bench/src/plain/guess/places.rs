//! Sets of places of a row.

use std::array::from_fn;

use super::super::rows::all_together;
use super::super::squares::{Row, SIDE};

/// A bit for each place.
#[derive(Clone, Copy, Debug, PartialEq, Eq)]
pub(super) struct Places(u16);

impl Places {
    pub(super) const NONE: Places = Places(0);

    /// The first so many places, 16 at most.
    pub(super) fn first_ones(count: usize) -> Places {
        Places(((1_u32 << count) - 1) as u16)
    }

    /// Where a row has a value.
    pub(super) fn of(row: &Row, value: u16) -> Places {
        let bits = from_fn(|place| if row[place] == value { 1 << place } else { 0 });
        Places(all_together(&bits, |one, other| one | other))
    }

    pub(super) fn is_empty(self) -> bool {
        self.0 == 0
    }

    pub(super) fn has(self, place: usize) -> bool {
        self.0 >> place & 1 != 0
    }

    pub(super) fn with(self, place: usize) -> Places {
        Places(self.0 | 1 << place)
    }

    pub(super) fn without(self, place: usize) -> Places {
        Places(self.0 & !(1 << place))
    }

    /// The first place; 0 if there is none.
    pub(super) fn first(self) -> usize {
        self.0.trailing_zeros() as usize % SIDE
    }

    /// The places in rising order.
    pub(super) fn iter(self) -> impl Iterator<Item = usize> {
        let mut left = self;
        std::iter::from_fn(move || {
            if left.is_empty() {
                return None;
            }
            let place = left.first();
            left = left.without(place);
            Some(place)
        })
    }
}
