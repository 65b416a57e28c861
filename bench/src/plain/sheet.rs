//! The sheet: a ticket settled, as text.

use std::fmt::Write;

use super::quick::judge;
use super::settle::settled;
use super::settlement::{Agreement, Settlement};
use super::ticket::{Terms, Ticket};
use super::{Refusal, copy_to_front};

/// Writes the sheet of a ticket at the front of a lent buffer, and returns its length. A refused ticket has one too.
pub fn sheet(ticket: &[u8], text: &mut [u8]) -> Result<usize, Refusal> {
    let ticket = match Ticket::read(ticket) {
        Err(refusal) => return copy_to_front(refused_text(refusal).as_bytes(), text),
        Ok(ticket) => ticket,
    };
    if text.len() < settled_room(&ticket) {
        return Err(Refusal::NoRoom);
    }
    copy_to_front(settled_text(&ticket, &settled(&ticket)).as_bytes(), text)
}

/// The length that the buffer must have.
pub fn room_needed(ticket: &[u8]) -> usize {
    match Ticket::read(ticket) {
        Err(refusal) => refused_text(refusal).len(),
        Ok(ticket) => settled_room(&ticket),
    }
}

/// Room for the longest sheet that the ticket could have.
fn settled_room(ticket: &Ticket) -> usize {
    24 + 32 * ticket.pairs()
}

fn refused_text(refusal: Refusal) -> String {
    format!("REFUSED {}\n", refusal as u8)
}

fn settled_text(ticket: &Ticket, settlement: &Settlement) -> String {
    let mut text = format!("SHEET {} {}\n", ticket.growers(), ticket.pilots());
    for grower in 0..ticket.growers() {
        for pilot in 0..ticket.pilots() {
            let terms = ticket.terms(grower, pilot);
            let agreement = settlement.agreement(grower, pilot);
            write_pair(&mut text, grower, pilot, terms, agreement);
        }
    }
    let count = judge(ticket, settlement).count;
    push_line(&mut text, format_args!("SOUND {count}"));
    text
}

/// The line of a pair, if it has any hours.
fn write_pair(
    text: &mut String,
    grower: usize,
    pilot: usize,
    terms: &Terms,
    agreement: &Agreement,
) {
    let Agreement {
        tariff_hours,
        free_deal_hours,
        pay,
    } = *agreement;
    if tariff_hours == 0 && free_deal_hours == 0 {
        return;
    }
    let (gain, tariff_pay) = (terms.tariff_gain, terms.tariff_pay);
    let share = if free_deal_hours == 0 {
        0
    } else {
        terms.joint_gain - pay
    };
    push_line(
        text,
        format_args!(
            "{grower} {pilot} {tariff_hours} {gain} {tariff_pay} {free_deal_hours} {share} {pay}"
        ),
    );
}

fn push_line(text: &mut String, line: std::fmt::Arguments) {
    writeln!(text, "{line}").expect("a string takes every line");
}
