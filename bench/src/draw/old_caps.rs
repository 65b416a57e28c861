//! Tickets with an old cap: one above 0 of somebody who has no hours, alone or with another fault beside it.

use super::generator::Generator;
use crate::plain::ticket::{Terms, Ticket};

/// What else is wrong with the ticket.
#[derive(Clone, Copy, Debug, PartialEq, Eq)]
pub enum Beside {
    Nothing,
    /// The cap itself is above its limit.
    CapAboveLimit,
    LaterFault,
    EarlierFault,
}

impl Beside {
    pub const ALL: [Beside; 4] = [
        Beside::Nothing,
        Beside::CapAboveLimit,
        Beside::LaterFault,
        Beside::EarlierFault,
    ];
}

/// Too large for every place of a ticket.
const TOO_LARGE: u16 = 600;

/// The numbers of a good ticket, changed so that it has an old cap.
pub fn with_old_cap(generator: &mut Generator, ticket: &Ticket, beside: Beside) -> Vec<u16> {
    let mut ticket = ticket.clone();
    let pairs = take_hours(generator, &mut ticket);
    let begin = 3 + ticket.growers() + ticket.pilots();
    let place = begin + first_cap(generator, &mut ticket, &pairs);
    let mut numbers = ticket.numbers();
    match beside {
        Beside::Nothing => {}
        Beside::CapAboveLimit => numbers[place] = generator.between(61, 127),
        Beside::LaterFault => later_fault(generator, &mut numbers, begin, place),
        Beside::EarlierFault => {
            let earlier = generator.below(place);
            spoil(generator, &mut numbers, begin, earlier);
        }
    }
    numbers
}

/// Takes somebody's hours. The answer has his pairs; in one ticket of two they have lost their deals.
fn take_hours(generator: &mut Generator, ticket: &mut Ticket) -> Vec<usize> {
    let (growers, pilots) = (ticket.growers(), ticket.pilots());
    let party = generator.below(growers + pilots);
    let pairs: Vec<usize> = if party < growers {
        ticket.grower_hours[party] = 0;
        (party * pilots..(party + 1) * pilots).collect()
    } else {
        ticket.pilot_hours[party - growers] = 0;
        (party - growers..growers * pilots)
            .step_by(pilots)
            .collect()
    };
    if generator.once_in(2) {
        for &pair in &pairs {
            ticket.terms[pair] = Terms::default();
        }
    }
    pairs
}

/// The place of the first cap above 0 of these pairs, from where the pairs begin. If there is none, one of them is given one.
fn first_cap(generator: &mut Generator, ticket: &mut Ticket, pairs: &[usize]) -> usize {
    for &pair in pairs {
        let terms = &ticket.terms[pair];
        if terms.tariff_cap > 0 {
            return 5 * pair;
        }
        if terms.free_cap > 0 {
            return 5 * pair + 3;
        }
    }
    let pair = generator.one_of(pairs);
    let cap = generator.between(1, 60);
    if generator.once_in(2) {
        ticket.terms[pair].tariff_cap = cap;
        5 * pair
    } else {
        ticket.terms[pair].free_cap = cap;
        5 * pair + 3
    }
}

/// A fault after the cap at a place, which is never the last number.
fn later_fault(generator: &mut Generator, numbers: &mut Vec<u16>, begin: usize, place: usize) {
    let later = place + 1 + generator.below(numbers.len() - place - 1);
    match generator.below(4) {
        0 => numbers.truncate(later),
        1 => numbers.push(0),
        _ => spoil(generator, numbers, begin, later),
    }
}

/// Makes the number at a place wrong: too large, or an amount in a deal of cap 0.
fn spoil(generator: &mut Generator, numbers: &mut [u16], begin: usize, place: usize) {
    let cap = match place.checked_sub(begin).map(|after| after % 5) {
        Some(1 | 4) => Some(numbers[place - 1]),
        Some(2) => Some(numbers[place - 2]),
        _ => None,
    };
    numbers[place] = match cap {
        Some(0) if generator.once_in(2) => 1,
        _ => TOO_LARGE,
    };
}
