//! Ways of ties over which pilots are reached, from the grower who asks.

use super::super::Deal;
use super::super::squares::{Row, SIDE};
use super::rows::note;
use super::state::State;

/// The last step to a pilot: the grower who comes to him, by which deal, and the pilot whose free-deal hours he gives up for
/// it. The grower who asks gives up nothing.
#[derive(Clone, Copy)]
pub(super) struct Step {
    pub(super) grower: usize,
    pub(super) deal: Deal,
    pub(super) from: Option<usize>,
}

/// The last step to each pilot, by free deals: 32 times the grower, and the pilot or 16.
pub(super) struct Ways(Row);

/// At a pilot who lies on a way one grower leaves free-deal hours to another.
struct Exchange {
    pilot: usize,
    leaves: usize,
    comes: usize,
}

impl Step {
    fn mark(&self) -> u16 {
        (32 * self.grower + self.from.unwrap_or(SIDE)) as u16
    }

    fn of_mark(mark: u16) -> Step {
        let from = usize::from(mark % 32);
        Step {
            grower: usize::from(mark / 32) % SIDE,
            deal: Deal::Free,
            from: (from < SIDE).then_some(from),
        }
    }
}

impl Ways {
    pub(super) const NONE: Ways = Ways([0; SIDE]);

    pub(super) fn to(&self, pilot: usize) -> Step {
        Step::of_mark(self.0[pilot])
    }

    /// This is the last step wherever it comes sooner.
    pub(super) fn note(&mut self, sooner: &Row, step: Step) {
        note(&mut self.0, sooner, &[step.mark(); SIDE]);
    }

    /// The exchanges before a step, back to the grower who asks. A way has no more than there are pilots.
    fn before(&self, step: Step) -> impl Iterator<Item = Exchange> {
        let mut step = step;
        let exchanges = std::iter::from_fn(move || {
            let (leaves, pilot) = (step.grower, step.from?);
            step = self.to(pilot);
            Some(Exchange {
                pilot,
                leaves,
                comes: step.grower,
            })
        });
        exchanges.take(SIDE)
    }

    /// Whether a pilot lies on the way before a step.
    pub(super) fn passes(&self, step: Step, pilot: usize) -> bool {
        self.before(step).any(|exchange| exchange.pilot == pilot)
    }
}

impl State<'_> {
    /// How many hours, at most so many, can move along the way before a step. If it begins at a pilot, in place of the grower
    /// who asks, nobody comes to that pilot.
    pub(super) fn room_along(
        &self,
        ways: &Ways,
        last: Step,
        begin: Option<usize>,
        most: u16,
    ) -> u16 {
        let mut count = most;
        for exchange in ways.before(last) {
            let pilot = exchange.pilot;
            count = count.min(self.free.hours[exchange.leaves][pilot]);
            if begin == Some(pilot) {
                break;
            }
            count = count.min(self.free.room(exchange.comes, pilot));
        }
        count
    }

    pub(super) fn move_along(&mut self, ways: &Ways, last: Step, begin: Option<usize>, count: u16) {
        for exchange in ways.before(last) {
            let pilot = exchange.pilot;
            self.remove_free(exchange.leaves, pilot, count);
            if begin == Some(pilot) {
                break;
            }
            self.add_free(exchange.comes, pilot, count);
        }
    }
}
