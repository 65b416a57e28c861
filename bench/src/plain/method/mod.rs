//! Settling by turns, the method that is proved to end in a sound settlement: growers propose, pilots keep the best offers,
//! prices rise in eighteenths of a euro, and one rounding at the end makes them whole euros.

mod jumps;

use std::ops::AddAssign;

use super::Deal;
use super::settlement::{Agreement, Settlement};
use super::squares::SIDE;
use super::ticket::{Terms, Ticket};

/// Prices are counted in parts of a euro.
const PARTS: u32 = 18;

/// Whether several prices may rise at once.
#[derive(Clone, Copy, Debug, PartialEq, Eq)]
pub enum Rises {
    Jumps,
    ByOne,
}

/// How many turns settling took: hours came into a deal, one price rose by one, or several rose in a jump.
#[derive(Clone, Copy, Debug, Default, PartialEq, Eq)]
pub struct Turns {
    pub served: u64,
    pub rises: u64,
    pub jumps: u64,
}

impl AddAssign for Turns {
    fn add_assign(&mut self, more: Turns) {
        self.served += more.served;
        self.rises += more.rises;
        self.jumps += more.jumps;
    }
}

impl Turns {
    pub fn all(&self) -> u64 {
        self.served + self.rises + self.jumps
    }
}

/// A sound settlement of a ticket, and the turns that it took.
pub fn settle_ticket(ticket: &Ticket, rises: Rises) -> (Settlement, Turns) {
    let mut state = State::new(ticket);
    let turns = state.run(rises);
    (state.settlement(ticket), turns)
}

/// The terms of a pair, amounts in parts of a euro.
#[derive(Clone, Copy, Default)]
struct Offer {
    tariff_cap: u32,
    tariff_gain: u32,
    tariff_pay: u32,
    free_cap: u32,
    joint_gain: u32,
}

/// The hours of a pair. Free-deal hours are new if they were agreed at the pilot's price, and old if at one part less.
#[derive(Clone, Copy, Default)]
struct Held {
    tariff: u32,
    old: u32,
    new: u32,
}

/// The state of the method. What is in range of the ticket is used, the rest stays 0.
struct State {
    growers: usize,
    pilots: usize,
    offers: [[Offer; SIDE]; SIDE],
    held: [[Held; SIDE]; SIDE],
    price: [u32; SIDE],
    grower_free: [u32; SIDE],
    pilot_free: [u32; SIDE],
}

impl Offer {
    fn new(terms: &Terms) -> Offer {
        Offer {
            tariff_cap: u32::from(terms.tariff_cap),
            tariff_gain: PARTS * u32::from(terms.tariff_gain),
            tariff_pay: PARTS * u32::from(terms.tariff_pay),
            free_cap: u32::from(terms.free_cap),
            joint_gain: PARTS * u32::from(terms.joint_gain),
        }
    }

    /// What one more tariff hour would bring the grower, and 1; 0 if the deal is full or pays the pilot too little.
    fn tariff_chance(&self, held: &Held, price: u32) -> u32 {
        if held.tariff < self.tariff_cap && price <= self.tariff_pay {
            self.tariff_gain + 1
        } else {
            0
        }
    }

    /// The same for one more free-deal hour at the pilot's price.
    fn free_chance(&self, held: &Held, price: u32) -> u32 {
        if held.old + held.new < self.free_cap {
            (self.joint_gain + 1).saturating_sub(price)
        } else {
            0
        }
    }

    fn room(&self, held: &Held, deal: Deal) -> u32 {
        match deal {
            Deal::Tariff => self.tariff_cap - held.tariff,
            Deal::Free => self.free_cap - (held.old + held.new),
        }
    }
}

impl State {
    fn new(ticket: &Ticket) -> State {
        let mut state = State {
            growers: ticket.growers(),
            pilots: ticket.pilots(),
            offers: [[Offer::default(); SIDE]; SIDE],
            held: [[Held::default(); SIDE]; SIDE],
            price: [0; SIDE],
            grower_free: [0; SIDE],
            pilot_free: [0; SIDE],
        };
        for (free, &hours) in state.grower_free.iter_mut().zip(&ticket.grower_hours) {
            *free = u32::from(hours);
        }
        for (free, &hours) in state.pilot_free.iter_mut().zip(&ticket.pilot_hours) {
            *free = u32::from(hours);
        }
        let rows = ticket.terms.chunks_exact(ticket.pilots());
        for (offers, row) in state.offers.iter_mut().zip(rows) {
            for (offer, terms) in offers.iter_mut().zip(row) {
                *offer = Offer::new(terms);
            }
        }
        state
    }

    /// Turns, until no grower with a free hour has an open deal.
    fn run(&mut self, rises: Rises) -> Turns {
        let mut turns = Turns::default();
        let mut from = 0;
        while let Some((grower, pilot, deal)) = self.next_deal(from) {
            if self.serve(grower, pilot, deal) {
                turns.served += 1;
            } else if rises == Rises::Jumps && jumps::jump(self, pilot) {
                turns.jumps += 1;
            } else {
                self.rise(pilot);
                turns.rises += 1;
            }
            from = grower;
        }
        turns
    }

    /// The best deal of the first grower with a free hour and an open deal, from the grower `from` on and round.
    fn next_deal(&self, from: usize) -> Option<(usize, usize, Deal)> {
        (from..self.growers).chain(0..from).find_map(|grower| {
            if self.grower_free[grower] == 0 {
                return None;
            }
            let (pilot, deal) = self.best_deal(grower)?;
            Some((grower, pilot, deal))
        })
    }

    /// The first of the deals that offer a grower most.
    fn best_deal(&self, grower: usize) -> Option<(usize, Deal)> {
        let mut top = 0;
        let mut best = None;
        let row = self.offers[grower].iter().zip(&self.held[grower]);
        for (pilot, ((offer, held), &price)) in row.zip(&self.price[..self.pilots]).enumerate() {
            let tariff = offer.tariff_chance(held, price);
            if top < tariff {
                top = tariff;
                best = Some((pilot, Deal::Tariff));
            }
            let free = offer.free_chance(held, price);
            if top < free {
                top = free;
                best = Some((pilot, Deal::Free));
            }
        }
        best
    }

    /// Hours come into the deal, if its pilot has a free hour, or a late one to give for it.
    fn serve(&mut self, grower: usize, pilot: usize, deal: Deal) -> bool {
        let room = self.offers[grower][pilot].room(&self.held[grower][pilot], deal);
        let most = room.min(self.grower_free[grower]);
        if self.pilot_free[pilot] > 0 {
            let count = most.min(self.pilot_free[pilot]);
            self.pilot_free[pilot] -= count;
            self.add(grower, pilot, deal, count);
            return true;
        }
        let Some((giver, given)) = self.late_hour(pilot) else {
            return false;
        };
        let late = match given {
            Deal::Tariff => &mut self.held[giver][pilot].tariff,
            Deal::Free => &mut self.held[giver][pilot].old,
        };
        let count = most.min(*late);
        *late -= count;
        self.grower_free[giver] += count;
        self.add(grower, pilot, deal, count);
        true
    }

    fn add(&mut self, grower: usize, pilot: usize, deal: Deal, count: u32) {
        self.grower_free[grower] -= count;
        let held = &mut self.held[grower][pilot];
        match deal {
            Deal::Tariff => held.tariff += count,
            Deal::Free => held.new += count,
        }
    }

    /// The first hour of a pilot that pays him less than his price.
    fn late_hour(&self, pilot: usize) -> Option<(usize, Deal)> {
        let price = self.price[pilot];
        (0..self.growers).find_map(|grower| {
            let held = &self.held[grower][pilot];
            if held.old > 0 {
                return Some((grower, Deal::Free));
            }
            let late = held.tariff > 0 && self.offers[grower][pilot].tariff_pay < price;
            late.then_some((grower, Deal::Tariff))
        })
    }

    /// A pilot's price rises by one, and his new hours become old.
    fn rise(&mut self, pilot: usize) {
        for row in &mut self.held[..self.growers] {
            let held = &mut row[pilot];
            held.old += held.new;
            held.new = 0;
        }
        self.price[pilot] += 1;
    }

    /// The settlement, with prices in whole euros.
    fn settlement(&self, ticket: &Ticket) -> Settlement {
        let shift = self.rounding();
        let mut settlement = Settlement::empty(ticket);
        let rows = settlement.agreements.chunks_exact_mut(self.pilots);
        for (row, held) in rows.zip(&self.held) {
            for ((agreement, held), price) in row.iter_mut().zip(held).zip(&self.price) {
                *agreement = agreed(held, (price + shift) / PARTS);
            }
        }
        settlement
    }

    /// The least number that makes no price a whole number of euros when it is added.
    fn rounding(&self) -> u32 {
        let prices = &self.price[..self.pilots];
        (0..PARTS)
            .find(|shift| prices.iter().all(|price| (price + shift) % PARTS != 0))
            .expect("sixteen prices leave one of eighteen numbers")
    }
}

fn agreed(held: &Held, euros: u32) -> Agreement {
    let free_deal_hours = held.old + held.new;
    Agreement {
        tariff_hours: held.tariff as u16,
        free_deal_hours: free_deal_hours as u16,
        pay: if free_deal_hours > 0 { euros as u16 } else { 0 },
    }
}
