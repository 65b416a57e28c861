//! The search: prices of pilots who tie rise together until somebody finds hours.

use std::ops::ControlFlow::{self, Break, Continue};

use super::super::Deal;
use super::super::rows::{ALL, differences, least};
use super::super::squares::{Row, SIDE};
use super::moves::{Displaced, Room};
use super::places::Places;
use super::rows::{fallen, lift, look_times, note, tie_times};
use super::state::State;
use super::ways::{Step, Ways};

/// How many events a search may take. Far more than was ever seen.
const MOST_EVENTS: usize = 2_000;

/// A search for a grower who asks. All times are by how much the prices of the pilots reached have risen.
struct Search<'s, 't> {
    state: &'s mut State<'t>,
    root: usize,
    /// What his best offer was when the search began.
    top: u16,
    now: u16,
    /// Pilots: all ones if the price rises.
    reached: Row,
    /// When a pilot ties, and over whom.
    joins: Row,
    ways: Ways,
    /// Growers: what the least of their hours with pilots reached is worth now, all ones if they have none; and with which
    /// pilot that is. When it is worth nothing need not be a number of 16 bits.
    worths: Row,
    with: Row,
    /// When to look at a grower; and all ones if nobody has looked since he was reached.
    looks: Row,
    unseen: Row,
    /// When to look at the grower who asks.
    root_looks: u16,
    /// When a tariff hour of a pilot reached becomes late, and whose.
    late: u16,
    late_pilot: usize,
}

/// When the next pilot ties, the next grower's hour is worth nothing, and the next grower is to be looked at.
struct Times {
    join: u16,
    end: u16,
    look: u16,
}

/// Whether the search goes on, or who asks next.
type Outcome = ControlFlow<Displaced>;

impl State<'_> {
    /// A grower whose best offer is `top` finds hours with pilots who have none for him now.
    pub(super) fn search(&mut self, root: usize, top: u16) -> Displaced {
        let mut search = Search::new(self, root, top);
        for _ in 0..MOST_EVENTS {
            if let Break(displaced) = search.step() {
                return displaced;
            }
        }
        None
    }
}

impl<'s, 't> Search<'s, 't> {
    fn new(state: &'s mut State<'t>, root: usize, top: u16) -> Search<'s, 't> {
        let mut search = Search {
            state,
            root,
            top,
            now: 0,
            reached: [0; SIDE],
            joins: [ALL; SIDE],
            ways: Ways::NONE,
            worths: [ALL; SIDE],
            with: [0; SIDE],
            looks: [ALL; SIDE],
            unseen: [0; SIDE],
            root_looks: ALL,
            late: ALL,
            late_pilot: 0,
        };
        search.tie(root, None, top);
        search.root_looks = search.tariff_time(root, top);
        search
    }

    /// Prices rise to the next event.
    fn step(&mut self) -> Outcome {
        let times = Times {
            join: least(&self.joins),
            end: self
                .now
                .saturating_add(least(&self.worths).saturating_sub(1)),
            look: least(&self.looks),
        };
        self.rise(self.soonest(&times));
        let new = if times.join == self.now {
            Places::of(&self.joins, self.now)
        } else {
            Places::NONE
        };
        match self.find(new, times.end) {
            Some((pilot, room)) => Break(self.come(pilot, room)),
            None => self.go_on(new, times.look),
        }
    }

    fn soonest(&self, times: &Times) -> u16 {
        let soon = times.join.min(times.end).min(times.look);
        let of_root = self.root_looks.min(self.last());
        soon.min(of_root).min(self.late)
    }

    /// When an hour of the grower who asks is worth nothing.
    fn last(&self) -> u16 {
        self.top.saturating_sub(1)
    }

    fn rise(&mut self, to: u16) {
        if self.now < to {
            let by = to - self.now;
            lift(&mut self.state.price, &self.reached, by);
            lift(&mut self.state.asked, &self.reached, by);
            self.worths = fallen(&self.worths, by);
            self.now = to;
        }
    }

    /// A pilot who can take hours: one who has just joined, or whose tariff hour is late, or with whom an hour is worth nothing
    /// to its grower any more.
    fn find(&self, new: Places, end: u16) -> Option<(usize, Room)> {
        if let Some(found) = self.room_among(new) {
            return Some(found);
        }
        if self.late == self.now {
            return Some((self.late_pilot, self.state.late_room(self.late_pilot)));
        }
        if end == self.now {
            let grower = Places::of(&self.worths, 1).first();
            return Some((self.pilot_of(grower), Room::Given(Deal::Free, grower)));
        }
        None
    }

    fn room_among(&self, pilots: Places) -> Option<(usize, Room)> {
        pilots
            .iter()
            .find_map(|pilot| Some((pilot, self.state.room_at(pilot)?)))
    }

    /// The pilot with whom a grower has the least of his hours.
    fn pilot_of(&self, grower: usize) -> usize {
        usize::from(self.with[grower]) % SIDE
    }

    fn come(&mut self, pilot: usize, room: Room) -> Displaced {
        let last = self.ways.to(pilot);
        self.state.come(self.root, &self.ways, last, pilot, room)
    }

    fn come_by_tariff(&mut self, grower: usize, from: Option<usize>, pilot: usize) -> Displaced {
        self.state
            .come_by_tariff(self.root, &self.ways, grower, from, pilot)
    }

    /// Nobody has room yet: growers are looked at, or the prices of more pilots begin to rise, unless an hour is worth nothing
    /// more to the one who asks.
    fn go_on(&mut self, new: Places, look: u16) -> Outcome {
        if self.root_looks == self.now {
            return self.look_at_root();
        }
        if look == self.now {
            return self.look_at_growers();
        }
        if self.now == self.last() {
            return Break(None);
        }
        for pilot in new.iter() {
            self.reach(pilot);
        }
        Continue(())
    }

    /// Does a tariff tie for the grower who asks?
    fn look_at_root(&mut self) -> Outcome {
        let worth = self.top.saturating_sub(self.now);
        if let Some(pilot) = self.state.tariff_tie(self.root, worth) {
            return Break(self.come_by_tariff(self.root, None, pilot));
        }
        self.root_looks = self.tariff_time(self.root, worth);
        Continue(())
    }

    /// All growers whose time it is, until a tariff ties.
    fn look_at_growers(&mut self) -> Outcome {
        for grower in Places::of(&self.looks, self.now).iter() {
            self.look_at_grower(grower)?;
        }
        Continue(())
    }

    fn look_at_grower(&mut self, grower: usize) -> Outcome {
        let worth = self.worths[grower];
        if self.unseen[grower] != 0 {
            self.look_first(grower, worth);
            return Continue(());
        }
        if let Some(pilot) = self.state.tariff_tie(grower, worth) {
            return Break(self.come_by_tariff(grower, Some(self.pilot_of(grower)), pilot));
        }
        self.looks[grower] = self.tariff_time(grower, worth);
        Continue(())
    }

    /// A grower whose hour is worth so much is looked at for the first time: does anything tie with it?
    fn look_first(&mut self, grower: usize, worth: u16) {
        let other = self.state.best_outside(grower, &self.reached);
        if other < worth {
            self.looks[grower] = self.now.saturating_add(worth - other);
        } else {
            self.unseen[grower] = 0;
            self.tie(grower, Some(self.pilot_of(grower)), worth);
            self.looks[grower] = self.tariff_time(grower, worth);
        }
    }

    /// When the free deals of a grower tie with an hour of his that is worth so much now, and falls.
    fn tie(&mut self, grower: usize, from: Option<usize>, worth: u16) {
        let free = &self.state.free.open[grower];
        let times = tie_times(free, &self.state.price, &self.reached, worth, self.now);
        let sooner = differences(&self.joins, &times);
        self.joins = differences(&self.joins, &sooner);
        let step = Step {
            grower,
            deal: Deal::Free,
            from,
        };
        self.ways.note(&sooner, step);
    }

    fn tariff_time(&self, grower: usize, worth: u16) -> u16 {
        let wait = self.state.tariff_wait(grower, worth, &self.reached);
        wait.saturating_add(self.now)
    }

    /// The price of a pilot begins to rise.
    fn reach(&mut self, pilot: usize) {
        self.joins[pilot] = ALL;
        self.reached[pilot] = ALL;
        let late = self.late_time(pilot);
        if late < self.late {
            (self.late, self.late_pilot) = (late, pilot);
        }
        self.reach_growers(pilot);
    }

    fn late_time(&self, pilot: usize) -> u16 {
        match self.state.worst[pilot] {
            ALL => ALL,
            worst => worst
                .saturating_sub(self.state.price[pilot])
                .saturating_add(self.now),
        }
    }

    /// Growers who have free-deal hours with a pilot are to be looked at, if these hours are the least that they have.
    fn reach_growers(&mut self, pilot: usize) {
        let worths = fallen(&self.state.free.noted[pilot], self.state.price[pilot]);
        let less = differences(&self.worths, &worths);
        let looks = look_times(&worths, &self.state.most, self.now);
        self.worths = differences(&self.worths, &less);
        note(&mut self.looks, &less, &looks);
        note(&mut self.with, &less, &[pilot as u16; SIDE]);
        note(&mut self.unseen, &less, &[ALL; SIDE]);
    }
}
