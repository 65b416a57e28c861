//! The tariff deals of all pairs, or their free deals, and the hours in them.

use std::array::from_fn;

use super::super::rows::{ALL, sums, where_any};
use super::super::squares::{SIDE, Square};

pub(super) struct Deals<'a> {
    cap: &'a Square,
    /// What an hour gains by the ticket: the grower by tariff, both together by free deal. And 1.
    pub(super) gain: Square,
    /// The same where the deal is below its cap, else 0.
    pub(super) open: Square,
    pub(super) hours: Square,
    /// Pilots by growers: a number for each pair that has hours, else all ones.
    pub(super) noted: Square,
}

impl<'a> Deals<'a> {
    /// Without any hours.
    pub(super) fn new(cap: &'a Square, gain: &Square) -> Deals<'a> {
        let gain = gain.map(|row| sums(&row, &[1; SIDE]));
        Deals {
            cap,
            gain,
            open: from_fn(|grower| where_any(&cap[grower], &gain[grower])),
            hours: [[0; SIDE]; SIDE],
            noted: [[ALL; SIDE]; SIDE],
        }
    }

    pub(super) fn room(&self, grower: usize, pilot: usize) -> u16 {
        self.cap[grower][pilot].saturating_sub(self.hours[grower][pilot])
    }

    /// Hours come into a deal, and a number is noted for its pair.
    pub(super) fn add(&mut self, grower: usize, pilot: usize, count: u16, note: u16) {
        let hours = &mut self.hours[grower][pilot];
        *hours = hours.saturating_add(count);
        self.noted[pilot][grower] = note;
        if *hours == self.cap[grower][pilot] {
            self.open[grower][pilot] = 0;
        }
    }

    /// Hours leave a deal.
    pub(super) fn remove(&mut self, grower: usize, pilot: usize, count: u16) {
        let hours = &mut self.hours[grower][pilot];
        *hours = hours.saturating_sub(count);
        self.open[grower][pilot] = self.gain[grower][pilot];
        if *hours == 0 {
            self.noted[pilot][grower] = ALL;
        }
    }
}
