//! Tickets changed a little, and still valid.

use super::generator::Generator;
use super::tickets::make_valid;
use crate::plain::ticket::{MOST_AMOUNT, MOST_HOURS, Terms, Ticket};

/// One change, or a few.
pub fn changed(generator: &mut Generator, ticket: &Ticket) -> Ticket {
    let mut ticket = ticket.clone();
    change(generator, &mut ticket);
    while generator.once_in(3) {
        change(generator, &mut ticket);
    }
    make_valid(&mut ticket);
    ticket
}

fn change(generator: &mut Generator, ticket: &mut Ticket) {
    match generator.below(8) {
        0 => change_hours(generator, ticket),
        1 => copy_pair(generator, ticket),
        2 => change_line(generator, ticket),
        _ => change_pair(generator, ticket),
    }
}

fn change_hours(generator: &mut Generator, ticket: &mut Ticket) {
    let party = generator.below(ticket.growers() + ticket.pilots());
    let hours = match party.checked_sub(ticket.growers()) {
        None => &mut ticket.grower_hours[party],
        Some(pilot) => &mut ticket.pilot_hours[pilot],
    };
    *hours = other_number(generator, *hours, MOST_HOURS);
}

/// A pair gets the terms of another.
fn copy_pair(generator: &mut Generator, ticket: &mut Ticket) {
    let from = generator.below(ticket.pairs());
    let to = generator.below(ticket.pairs());
    ticket.terms[to] = ticket.terms[from];
}

/// All pairs of a grower or a pilot get the same number in one place.
fn change_line(generator: &mut Generator, ticket: &mut Ticket) {
    let pilots = ticket.pilots();
    let place = generator.below(5);
    let pair = generator.below(ticket.pairs());
    let number = other_term(generator, &mut ticket.terms[pair], place);
    let of_grower = generator.once_in(2);
    for (other, terms) in ticket.terms.iter_mut().enumerate() {
        let same_line = if of_grower {
            other / pilots == pair / pilots
        } else {
            other % pilots == pair % pilots
        };
        if same_line {
            *term(terms, place) = number;
        }
    }
}

fn change_pair(generator: &mut Generator, ticket: &mut Ticket) {
    let place = generator.below(5);
    let pair = generator.below(ticket.pairs());
    let terms = &mut ticket.terms[pair];
    *term(terms, place) = other_term(generator, terms, place);
}

/// The number at a place of a pair's terms, in the order of the file.
fn term(terms: &mut Terms, place: usize) -> &mut u16 {
    match place {
        0 => &mut terms.tariff_cap,
        1 => &mut terms.tariff_gain,
        2 => &mut terms.tariff_pay,
        3 => &mut terms.free_cap,
        _ => &mut terms.joint_gain,
    }
}

/// Another number for that place.
fn other_term(generator: &mut Generator, terms: &mut Terms, place: usize) -> u16 {
    let most = match place {
        0 | 3 => MOST_HOURS,
        _ => MOST_AMOUNT,
    };
    other_number(generator, *term(terms, place), most)
}

/// A number up to `most`: any, one at an end, or one nearby.
fn other_number(generator: &mut Generator, number: u16, most: u16) -> u16 {
    match generator.below(6) {
        0 => generator.between(0, most),
        1 => generator.one_of(&[0, 1, most - 1, most]),
        2 | 3 => number.saturating_sub(generator.between(1, 5)),
        _ => most.min(number + generator.between(1, 5)),
    }
}

#[cfg(test)]
mod tests {
    use super::super::generator::Generator;
    use super::super::tickets::any_ticket;
    use super::{Ticket, changed};

    #[test]
    fn changed_tickets_are_valid() {
        let mut generator = Generator::new(0);
        let mut differ = 0;
        for _ in 0..10_000 {
            let ticket = any_ticket(&mut generator);
            let changed = changed(&mut generator, &ticket);
            assert_eq!(Ticket::read(&changed.bytes()), Ok(changed.clone()));
            differ += usize::from(changed != ticket);
        }
        assert!(differ > 5_000, "{differ} of 10,000 differ");
    }
}
