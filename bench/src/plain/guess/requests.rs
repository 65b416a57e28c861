//! Growers ask one after another; who loses hours asks next.

use super::super::Deal;
use super::moves::Displaced;
use super::places::Places;
use super::state::State;
use super::ways::{Step, Ways};

/// How many requests a guess may take. Far more than was ever seen.
const MOST_REQUESTS: usize = 20_000;

/// Growers with hours that may find a deal, and who of them asks next, if he is one.
struct Queue {
    waiting: Places,
    next: usize,
}

impl Queue {
    fn next(&self) -> usize {
        if self.waiting.has(self.next) {
            self.next
        } else {
            self.waiting.first()
        }
    }
}

impl State<'_> {
    pub(super) fn run(&mut self) {
        let mut queue = Queue {
            waiting: Places::first_ones(self.ticket.growers),
            next: 0,
        };
        for _ in 0..MOST_REQUESTS {
            if queue.waiting.is_empty() {
                return;
            }
            let grower = queue.next();
            if let Some(next) = self.request(grower) {
                queue.waiting = queue.waiting.with(next);
                queue.next = next;
            } else {
                queue.waiting = queue.waiting.without(grower);
            }
        }
    }

    /// A grower asks the pilots whose offers are best. The answer is who asks next, or nobody if he wants no hours more: an
    /// offer of 1 is no more than a free hour is worth.
    fn request(&mut self, grower: usize) -> Option<usize> {
        if self.grower_free[grower] == 0 {
            return None;
        }
        let (offers, top) = self.best_offers(grower);
        if top == 0 {
            return None;
        }
        let ties = Places::of(&offers, top);
        if self.add_all(grower, top, ties) {
            return Some(grower);
        }
        if top == 1 {
            return None;
        }
        Some(self.serve(grower, top, ties).unwrap_or(grower))
    }

    /// Hours for the grower with pilots who have free hours, while he has some; and whether any of them had.
    fn add_all(&mut self, grower: usize, top: u16, pilots: Places) -> bool {
        let mut added = false;
        for pilot in pilots.iter() {
            if self.grower_free[grower] > 0 && self.pilot_free[pilot] > 0 {
                self.add_hours(grower, pilot, top);
                added = true;
            }
        }
        added
    }

    /// As many as both have free and the deal has room for.
    fn add_hours(&mut self, grower: usize, pilot: usize, top: u16) {
        let deal = if self.takes_tariff(grower, pilot, top) {
            Deal::Tariff
        } else {
            Deal::Free
        };
        let count = self.pilot_free[pilot]
            .min(self.grower_free[grower])
            .min(self.deals(deal).room(grower, pilot));
        self.pilot_free[pilot] -= count;
        self.grower_free[grower] -= count;
        self.add(deal, grower, pilot, count);
        self.settle_price(pilot);
    }

    /// Hours from full pilots: by the tariff, or in place of late hours, or else over the pilots who tie.
    fn serve(&mut self, grower: usize, top: u16, ties: Places) -> Displaced {
        if let Some(pilot) = ties
            .iter()
            .find(|&pilot| self.takes_tariff(grower, pilot, top))
        {
            return self.come_by_tariff(grower, &Ways::NONE, grower, None, pilot);
        }
        if let Some(pilot) = ties.iter().find(|&pilot| self.has_late(pilot)) {
            let last = Step {
                grower,
                deal: Deal::Free,
                from: None,
            };
            return self.come(grower, &Ways::NONE, last, pilot, self.late_room(pilot));
        }
        self.search(grower, top)
    }
}
