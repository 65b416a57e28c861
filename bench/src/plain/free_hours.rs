//! Everybody's free hours: his own that are in none of his deals.

use super::rows::{all_together, differences, sums};
use super::squares::{Row, SettlementSquares, TicketSquares};

/// A row for each side. Beyond the last party all numbers are 0.
#[derive(Clone, Copy, Debug, Default, PartialEq, Eq)]
pub struct FreeHours {
    pub growers: Row,
    pub pilots: Row,
}

impl FreeHours {
    /// What a feasible settlement leaves: grower by grower, all hours of his deals are taken from him and from the pilots.
    pub(super) fn left_by(ticket: &TicketSquares, settlement: &SettlementSquares) -> FreeHours {
        let mut free = FreeHours {
            growers: ticket.grower_hours,
            pilots: ticket.pilot_hours,
        };
        for (grower, hours) in free.growers.iter_mut().enumerate() {
            let flown = sums(
                &settlement.tariff_hours[grower],
                &settlement.free_deal_hours[grower],
            );
            *hours -= all_together(&flown, |one, other| one + other);
            free.pilots = differences(&free.pilots, &flown);
        }
        free
    }
}
