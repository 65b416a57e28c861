//! What growers are offered, and when a tariff ties with what they have.

use super::super::rows::{ALL, greatest, least};
use super::super::squares::Row;
use super::rows::{better_offers, tariff_offers, tariff_waits, unreached};
use super::state::State;

impl State<'_> {
    fn tariff_offers(&self, grower: usize) -> Row {
        let pay = &self.ticket.tariff_pay[grower];
        tariff_offers(&self.tariff.open[grower], pay, &self.asked)
    }

    /// The best offer of each pilot, and the best of them.
    pub(super) fn best_offers(&mut self, grower: usize) -> (Row, u16) {
        let by_tariff = self.tariff_offers(grower);
        let offers = better_offers(&self.free.open[grower], &self.price, &by_tariff);
        self.most[grower] = greatest(&offers);
        (offers, self.most[grower])
    }

    /// The best that a grower is offered, but for free deals with the pilots reached.
    pub(super) fn best_outside(&mut self, grower: usize, reached: &Row) -> u16 {
        let by_tariff = self.tariff_offers(grower);
        let free = &self.free.open[grower];
        let other = better_offers(&unreached(free, reached), &self.price, &by_tariff);
        self.most[grower] = greatest(&better_offers(free, &self.price, &by_tariff));
        greatest(&other)
    }

    /// Whether a pilot takes the grower by a tariff that offers at least so much.
    pub(super) fn takes_tariff(&self, grower: usize, pilot: usize, worth: u16) -> bool {
        self.asked[pilot] <= self.ticket.tariff_pay[grower][pilot]
            && worth <= self.tariff.open[grower][pilot]
    }

    /// The first pilot who does.
    pub(super) fn tariff_tie(&self, grower: usize, worth: u16) -> Option<usize> {
        (0..self.price.len()).find(|&pilot| self.takes_tariff(grower, pilot, worth))
    }

    /// After what time a tariff ties with an hour of a grower that is worth so much now, if it is still open then.
    pub(super) fn tariff_wait(&self, grower: usize, worth: u16, reached: &Row) -> u16 {
        if !self.has_tariffs[grower] {
            return ALL;
        }
        let offers = self.tariff_offers(grower);
        let pay = &self.ticket.tariff_pay[grower];
        least(&tariff_waits(&offers, pay, &self.asked, reached, worth))
    }
}
