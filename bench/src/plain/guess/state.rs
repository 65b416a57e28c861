//! The state of a guess: prices, and the hours that come into deals and leave them.

use super::super::Deal;
use super::super::rows::{ALL, greatest, least, where_any};
use super::super::squares::{Row, SIDE, SettlementSquares, TicketSquares};
use super::deals::Deals;
use super::places::Places;

/// Above every price.
const SKY: u16 = 60_000;

pub(super) struct State<'a> {
    pub(super) ticket: &'a TicketSquares,
    /// Of pairs with hours the pilot's tariff pay is noted.
    pub(super) tariff: Deals<'a>,
    /// Of pairs with hours the joint gain is noted, and 1.
    pub(super) free: Deals<'a>,
    pub(super) price: Row,
    /// The least tariff pay that a pilot takes.
    pub(super) asked: Row,
    /// The least that a tariff hour pays a pilot; all ones if he has none.
    pub(super) worst: Row,
    pub(super) pilot_free: Row,
    pub(super) grower_free: Row,
    /// No open deal offers a grower more.
    pub(super) most: Row,
    pub(super) has_tariffs: [bool; SIDE],
}

impl<'a> State<'a> {
    /// Before anybody asks. A pilot who has no hours at all has a price above every other.
    pub(super) fn new(ticket: &'a TicketSquares) -> State<'a> {
        let price = ticket
            .pilot_hours
            .map(|hours| if hours == 0 { SKY } else { 0 });
        let tariff = Deals::new(&ticket.tariff_cap, &ticket.tariff_gain);
        State {
            ticket,
            has_tariffs: tariff.open.map(|row| greatest(&row) > 0),
            tariff,
            free: Deals::new(&ticket.free_cap, &ticket.joint_gain),
            price,
            asked: price,
            worst: [ALL; SIDE],
            pilot_free: ticket.pilot_hours,
            grower_free: ticket.grower_hours,
            most: [ALL; SIDE],
        }
    }

    /// Free-deal hours pay the price.
    pub(super) fn settlement(self) -> SettlementSquares {
        SettlementSquares {
            pay: self.free.hours.map(|row| where_any(&row, &self.price)),
            tariff_hours: self.tariff.hours,
            free_deal_hours: self.free.hours,
        }
    }

    pub(super) fn deals(&self, deal: Deal) -> &Deals<'a> {
        match deal {
            Deal::Tariff => &self.tariff,
            Deal::Free => &self.free,
        }
    }

    pub(super) fn add(&mut self, deal: Deal, grower: usize, pilot: usize, count: u16) {
        match deal {
            Deal::Tariff => self.add_tariff(grower, pilot, count),
            Deal::Free => self.add_free(grower, pilot, count),
        }
    }

    pub(super) fn remove(&mut self, deal: Deal, grower: usize, pilot: usize, count: u16) {
        match deal {
            Deal::Tariff => self.remove_tariff(grower, pilot, count),
            Deal::Free => self.remove_free(grower, pilot, count),
        }
    }

    fn add_tariff(&mut self, grower: usize, pilot: usize, count: u16) {
        let pay = self.ticket.tariff_pay[grower][pilot];
        self.tariff.add(grower, pilot, count, pay);
        self.worst[pilot] = self.worst[pilot].min(pay);
    }

    pub(super) fn add_free(&mut self, grower: usize, pilot: usize, count: u16) {
        let gain = self.free.gain[grower][pilot];
        self.free.add(grower, pilot, count, gain);
    }

    fn remove_tariff(&mut self, grower: usize, pilot: usize, count: u16) {
        self.tariff.remove(grower, pilot, count);
        self.is_offered(grower, self.tariff.gain[grower][pilot]);
        if self.tariff.hours[grower][pilot] == 0 {
            self.worst[pilot] = least(&self.tariff.noted[pilot]);
        }
    }

    pub(super) fn remove_free(&mut self, grower: usize, pilot: usize, count: u16) {
        self.free.remove(grower, pilot, count);
        let gain = self.free.gain[grower][pilot];
        self.is_offered(grower, gain.saturating_sub(self.price[pilot]));
    }

    /// An open deal offers a grower so much.
    fn is_offered(&mut self, grower: usize, offer: u16) {
        self.most[grower] = self.most[grower].max(offer);
    }

    /// A pilot who has become full, or has no free-deal hours any more, asks what his worst hour pays for price.
    pub(super) fn settle_price(&mut self, pilot: usize) {
        if self.pilot_free[pilot] > 0 {
            return;
        }
        if least(&self.free.noted[pilot]) == ALL {
            self.price[pilot] = self.price[pilot].max(self.worst[pilot].min(SKY));
        }
        self.asked[pilot] = self.price[pilot].saturating_add(1);
    }

    pub(super) fn has_late(&self, pilot: usize) -> bool {
        self.worst[pilot] <= self.price[pilot]
    }

    /// The first grower who has a pilot's worst tariff hour.
    pub(super) fn late_grower(&self, pilot: usize) -> usize {
        Places::of(&self.tariff.noted[pilot], self.worst[pilot]).first()
    }

    /// What a free-deal hour with a pilot is worth to a grower who has any.
    pub(super) fn worth(&self, grower: usize, pilot: usize) -> Option<u16> {
        match self.free.noted[pilot][grower] {
            ALL => None,
            gain => Some(gain.saturating_sub(self.price[pilot])),
        }
    }
}
