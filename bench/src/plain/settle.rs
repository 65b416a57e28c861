//! Settling: a guess, if its certificate holds, and else the method of turns.

use super::certificate::certified;
use super::guess::guess;
use super::method::{Rises, settle_ticket};
use super::numbers::Bytes;
use super::settlement::Settlement;
use super::squares::{SettlementSquares, TicketSquares};
use super::ticket::{Ticket, ticket_numbers};
use super::{Refusal, copy_to_front};

/// Writes a sound settlement of a ticket at the front of a lent buffer, and returns its length.
pub fn settle(ticket: &[u8], settlement: &mut [u8]) -> Result<usize, Refusal> {
    let numbers = ticket_numbers(Bytes(ticket))?;
    let squares = TicketSquares::from_numbers(&numbers);
    let (growers, pilots) = (squares.growers, squares.pilots);
    if settlement.len() < 3 + 4 * growers * pilots {
        return Err(Refusal::NoRoom);
    }
    let bytes = match certified_guess(&squares) {
        Some(guessed) => guessed.bytes(growers, pilots),
        None => by_turns(&Ticket::from_numbers(&numbers)).bytes(),
    };
    copy_to_front(&bytes, settlement)
}

/// The guess, if its certificate holds.
pub fn certified_guess(ticket: &TicketSquares) -> Option<SettlementSquares> {
    let settlement = guess(ticket);
    certified(ticket, &settlement).then_some(settlement)
}

/// A sound settlement on squares, the one that `settle` writes.
pub(super) fn settled_squares(ticket: &TicketSquares) -> SettlementSquares {
    certified_guess(ticket).unwrap_or_else(|| SettlementSquares::of(&by_turns(&ticket.ticket())))
}

/// The same of a ticket.
pub fn settled(ticket: &Ticket) -> Settlement {
    match certified_guess(&TicketSquares::of(ticket)) {
        Some(guessed) => guessed.settlement(ticket.growers(), ticket.pilots()),
        None => by_turns(ticket),
    }
}

fn by_turns(ticket: &Ticket) -> Settlement {
    settle_ticket(ticket, Rises::Jumps).0
}
