//! A certificate that a settlement is sound: enough for soundness, though not needed for it.
//!
//! Everybody has a number that none of his spares is worth less than: 0 if he has a free hour, else the least that an hour of
//! his earns him. The settlement is certified if it is feasible, nothing is idle, and no unfilled deal brings both parties
//! more than their numbers: by tariff one of them gets no more than his, by free deal both together no more than the sum.

use std::array::from_fn;

use super::rows::{ALL, all_together, differences, is_zero, least, sums, where_any};
use super::squares::{Row, SIDE, SettlementSquares, TicketSquares};

/// Whether the certificate holds of a settlement of a ticket.
pub fn certified(ticket: &TicketSquares, settlement: &SettlementSquares) -> bool {
    let growers = Parties::growers(ticket, settlement);
    let pilots = Parties::pilots(ticket, settlement);
    let hours_kept =
        growers.keep_hours(&ticket.grower_hours) && pilots.keep_hours(&ticket.pilot_hours);
    let growers = growers.least_spares(&ticket.grower_hours);
    let pilots = pilots.least_spares(&ticket.pilot_hours);
    hours_kept
        && (0..ticket.growers).all(|grower| {
            let pairs = Pairs {
                ticket,
                settlement,
                grower,
            };
            let grower = growers.of(grower);
            pairs.are_feasible()
                && pairs.tariffs_kept(grower, &pilots)
                && pairs.free_deals_kept(grower, &pilots)
        })
}

/// All growers, or all pilots: their hours in deals, and the least that one of these hours earns. Sums stop at the greatest
/// number of 16 bits, which nobody's own hours reach.
struct Parties {
    used: Row,
    earned: Row,
}

impl Parties {
    fn growers(ticket: &TicketSquares, settlement: &SettlementSquares) -> Parties {
        let mut growers = Parties::without_hours();
        for grower in 0..ticket.growers {
            let (tariff, free) = hours_of(settlement, grower);
            let shares = differences(&ticket.joint_gain[grower], &settlement.pay[grower]);
            growers.used[grower] = all_together(&sums(tariff, free), u16::saturating_add);
            growers.earned[grower] = least(&lower(
                lower([ALL; SIDE], tariff, &ticket.tariff_gain[grower]),
                free,
                &shares,
            ));
        }
        growers
    }

    fn pilots(ticket: &TicketSquares, settlement: &SettlementSquares) -> Parties {
        let mut pilots = Parties::without_hours();
        for grower in 0..ticket.growers {
            let (tariff, free) = hours_of(settlement, grower);
            pilots.used = sums(&pilots.used, &sums(tariff, free));
            pilots.earned = lower(pilots.earned, tariff, &ticket.tariff_pay[grower]);
            pilots.earned = lower(pilots.earned, free, &settlement.pay[grower]);
        }
        pilots
    }

    fn without_hours() -> Parties {
        Parties {
            used: [0; SIDE],
            earned: [ALL; SIDE],
        }
    }

    /// Nobody has more hours in deals than his own.
    fn keep_hours(&self, own: &Row) -> bool {
        is_zero(&differences(&self.used, own))
    }

    fn least_spares(&self, own: &Row) -> Spares {
        let free = from_fn(|party| {
            if self.used[party] < own[party] {
                ALL
            } else {
                0
            }
        });
        Spares {
            free,
            least: from_fn(|party| self.earned[party] & !free[party]),
        }
    }
}

/// All growers, or all pilots: all ones for who has a free hour, and what no spare is worth less than.
struct Spares {
    free: Row,
    least: Row,
}

/// The same of one.
#[derive(Clone, Copy)]
struct Spare {
    free: u16,
    least: u16,
}

impl Spares {
    fn of(&self, party: usize) -> Spare {
        Spare {
            free: self.free[party],
            least: self.least[party],
        }
    }
}

/// The pairs of a grower.
struct Pairs<'a> {
    ticket: &'a TicketSquares,
    settlement: &'a SettlementSquares,
    grower: usize,
}

impl Pairs<'_> {
    /// Caps are kept; the pay is at most the joint gain, and 0 without free-deal hours.
    fn are_feasible(&self) -> bool {
        let (tariff, free) = hours_of(self.settlement, self.grower);
        let joint_gain = &self.ticket.joint_gain[self.grower];
        let most_pay = where_any(free, joint_gain);
        is_zero(&differences(tariff, &self.ticket.tariff_cap[self.grower]))
            && is_zero(&differences(free, &self.ticket.free_cap[self.grower]))
            && is_zero(&differences(&self.settlement.pay[self.grower], &most_pay))
    }

    /// No unfilled tariff deal is idle, or brings both more than their least spares.
    fn tariffs_kept(&self, grower: Spare, pilots: &Spares) -> bool {
        let gain = &self.ticket.tariff_gain[self.grower];
        let pay = &self.ticket.tariff_pay[self.grower];
        let faults = from_fn(|pilot| {
            let of_grower = gain[pilot].saturating_sub(grower.least);
            let of_pilot = pay[pilot].saturating_sub(pilots.least[pilot]);
            of_grower.min(of_pilot) | grower.free & pilots.free[pilot]
        });
        let hours = &self.settlement.tariff_hours[self.grower];
        is_zero(&unfilled(
            hours,
            &self.ticket.tariff_cap[self.grower],
            &faults,
        ))
    }

    /// The same of free deals.
    fn free_deals_kept(&self, grower: Spare, pilots: &Spares) -> bool {
        let joint_gain = &self.ticket.joint_gain[self.grower];
        let faults = from_fn(|pilot| {
            let least = grower.least.saturating_add(pilots.least[pilot]);
            joint_gain[pilot].saturating_sub(least) | grower.free & pilots.free[pilot]
        });
        let hours = &self.settlement.free_deal_hours[self.grower];
        is_zero(&unfilled(
            hours,
            &self.ticket.free_cap[self.grower],
            &faults,
        ))
    }
}

fn hours_of(settlement: &SettlementSquares, grower: usize) -> (&Row, &Row) {
    (
        &settlement.tariff_hours[grower],
        &settlement.free_deal_hours[grower],
    )
}

/// Bounds, lowered to what an hour earns, where there is one.
fn lower(bounds: Row, hours: &Row, earned: &Row) -> Row {
    from_fn(|place| {
        let earned = if hours[place] == 0 {
            ALL
        } else {
            earned[place]
        };
        bounds[place].min(earned)
    })
}

/// The faults of deals that are below their caps.
fn unfilled(hours: &Row, caps: &Row, faults: &Row) -> Row {
    from_fn(|place| {
        if hours[place] < caps[place] {
            faults[place]
        } else {
            0
        }
    })
}
