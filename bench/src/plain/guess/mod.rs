//! A settlement guessed fast. Nothing here has to be right: whoever uses a guess has it tested by its certificate.
//!
//! Each pilot has a whole price, which all his free-deal hours pay. As long as he has a free hour it is 0, and he takes
//! every tariff; a full pilot takes what pays more than his price. A tariff hour that pays no more than it is *late*: he
//! gives it up for any hour that he takes.
//!
//! Growers with free hours ask for their best open deal, one after another, and all deals that offer as much *tie*. Hours
//! come from a pilot who has them free, or who gives up a late hour, or by a tariff in place of a free-deal hour; who loses
//! hours asks next. Else the pilots who tie form a set, whose prices rise together, until one of them or of those who join
//! them can take hours, which then move along the way of ties. It is the Hungarian method (Kuhn, *The Hungarian method for
//! the assignment problem*, 1955) with hours, caps and tariffs.
//!
//! Offers, and what hours are worth to growers, are counted one higher than they are, so that 0 is no offer. All sums and
//! differences stay within 16 bits, which is enough for amounts up to 50,000.

mod deals;
mod moves;
mod offers;
mod places;
mod requests;
mod rows;
mod search;
mod state;
mod ways;

use super::squares::{SettlementSquares, TicketSquares};
use state::State;

/// What may be a sound settlement of a ticket.
pub fn guess(ticket: &TicketSquares) -> SettlementSquares {
    let mut state = State::new(ticket);
    state.run();
    state.settlement()
}
