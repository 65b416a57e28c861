//! Hours move along a way to its last pilot.

use super::super::Deal;
use super::super::rows::ALL;
use super::state::State;
use super::ways::{Step, Ways};

/// Where the last pilot of a way has the hours that come.
#[derive(Clone, Copy)]
pub(super) enum Room {
    Free,
    /// He gives up hours that he has with a grower.
    Given(Deal, usize),
}

/// Who asks next: a grower who lost hours, or nobody new.
pub(super) type Displaced = Option<usize>;

impl State<'_> {
    /// As many hours as possible come from the grower who asks to a pilot.
    pub(super) fn come(
        &mut self,
        root: usize,
        ways: &Ways,
        last: Step,
        pilot: usize,
        room: Room,
    ) -> Displaced {
        let most = self.grower_free[root]
            .min(self.hours_of(pilot, room))
            .min(self.deals(last.deal).room(last.grower, pilot));
        let count = self.room_along(ways, last, None, most);
        self.grower_free[root] -= count;
        let displaced = self.make_room(pilot, room, count);
        self.add(last.deal, last.grower, pilot, count);
        self.move_along(ways, last, None, count);
        self.settle_price(pilot);
        displaced
    }

    fn hours_of(&self, pilot: usize, room: Room) -> u16 {
        match room {
            Room::Free => self.pilot_free[pilot],
            Room::Given(deal, grower) => self.deals(deal).hours[grower][pilot],
        }
    }

    fn make_room(&mut self, pilot: usize, room: Room, count: u16) -> Displaced {
        match room {
            Room::Free => {
                self.pilot_free[pilot] -= count;
                None
            }
            Room::Given(deal, grower) => {
                self.remove(deal, grower, pilot, count);
                self.grower_free[grower] += count;
                Some(grower)
            }
        }
    }

    /// The hours that a pilot has for any hour that he takes: free ones, or late ones.
    pub(super) fn room_at(&self, pilot: usize) -> Option<Room> {
        if self.pilot_free[pilot] > 0 {
            Some(Room::Free)
        } else if self.has_late(pilot) {
            Some(self.late_room(pilot))
        } else {
            None
        }
    }

    pub(super) fn late_room(&self, pilot: usize) -> Room {
        Room::Given(Deal::Tariff, self.late_grower(pilot))
    }

    /// A pilot takes tariff hours: he has free or late ones for them, or gives up free-deal hours, which pay less.
    pub(super) fn come_by_tariff(
        &mut self,
        root: usize,
        ways: &Ways,
        grower: usize,
        from: Option<usize>,
        pilot: usize,
    ) -> Displaced {
        let last = Step {
            grower,
            deal: Deal::Tariff,
            from,
        };
        if let Some(room) = self.room_at(pilot) {
            return self.come(root, ways, last, pilot, room);
        }
        if let Some(last) = self.round(ways, last, pilot) {
            self.go_round(ways, last, pilot);
            return None;
        }
        let room = Room::Given(Deal::Free, self.least_loser(pilot));
        self.come(root, ways, last, pilot, room)
    }

    /// The last step of a way from a pilot round to himself: he lies on it, or the grower who asks has free-deal hours with
    /// him that bring no more than the tariff.
    fn round(&self, ways: &Ways, last: Step, pilot: usize) -> Option<Step> {
        if last.from.is_some() {
            return ways.passes(last, pilot).then_some(last);
        }
        let gain = self.tariff.gain[last.grower][pilot];
        let worse = self.worth(last.grower, pilot)? <= gain;
        worse.then_some(Step {
            from: Some(pilot),
            ..last
        })
    }

    /// Nobody loses hours.
    fn go_round(&mut self, ways: &Ways, last: Step, pilot: usize) {
        let room = self.tariff.room(last.grower, pilot);
        let count = self.room_along(ways, last, Some(pilot), room);
        self.add(Deal::Tariff, last.grower, pilot, count);
        self.move_along(ways, last, Some(pilot), count);
        self.settle_price(pilot);
    }

    /// Of those who have free-deal hours with a pilot, the first who loses least.
    fn least_loser(&self, pilot: usize) -> usize {
        let mut loser = 0;
        let mut least = ALL;
        for grower in 0..self.most.len() {
            let Some(worth) = self.worth(grower, pilot) else {
                continue;
            };
            let loss = worth.saturating_sub(self.most[grower]);
            if loss < least {
                (loser, least) = (grower, loss);
            }
        }
        loser
    }
}
