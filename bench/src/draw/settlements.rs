//! Settlements of a ticket, sound and not, drawn from a seed.

use super::generator::Generator;
use crate::plain::settle::settled;
use crate::plain::settlement::{Agreement, Settlement};
use crate::plain::ticket::{Terms, Ticket};

/// How a settlement was made.
#[derive(Clone, Copy, Debug, PartialEq, Eq)]
pub enum Making {
    Settled,
    OneFieldChanged,
    HoursMoved,
    WithinHours,
    WithinCaps,
    AnyNumbers,
    OtherSize,
}

impl Making {
    pub fn name(self) -> &'static str {
        match self {
            Making::Settled => "sound, our own",
            Making::OneFieldChanged => "one field changed",
            Making::HoursMoved => "an hour moved to another deal",
            Making::WithinHours => "random within everybody's hours",
            Making::WithinCaps => "random within caps",
            Making::AnyNumbers => "any numbers",
            Making::OtherSize => "of another size",
        }
    }
}

const MAKINGS: [Making; 8] = [
    Making::Settled,
    Making::OneFieldChanged,
    Making::OneFieldChanged,
    Making::HoursMoved,
    Making::WithinHours,
    Making::WithinCaps,
    Making::AnyNumbers,
    Making::OtherSize,
];

/// A settlement of a ticket, `sound` being one that is sound.
pub fn any_settlement(
    generator: &mut Generator,
    ticket: &Ticket,
    sound: &Settlement,
) -> (Making, Settlement) {
    let making = generator.one_of(&MAKINGS);
    let settlement = match making {
        Making::Settled => sound.clone(),
        Making::OneFieldChanged => one_field_changed(generator, sound),
        Making::HoursMoved => hour_moved(generator, sound),
        Making::WithinHours => within_hours(generator, ticket),
        Making::WithinCaps => drawn(generator, ticket, |generator, terms| Agreement {
            tariff_hours: generator.between(0, terms.tariff_cap),
            ..free_part(generator, terms, terms.free_cap)
        }),
        Making::AnyNumbers => drawn(generator, ticket, any_agreement),
        Making::OtherSize => other_size(generator, ticket),
    };
    (making, settlement)
}

fn any_agreement(generator: &mut Generator, _: &Terms) -> Agreement {
    let most = generator.one_of(&[0, 1, 60, 500, 16383]);
    Agreement {
        tariff_hours: generator.between(0, most),
        free_deal_hours: generator.between(0, most),
        pay: generator.between(0, most),
    }
}

fn drawn(
    generator: &mut Generator,
    ticket: &Ticket,
    draw: impl Fn(&mut Generator, &Terms) -> Agreement,
) -> Settlement {
    let mut settlement = Settlement::empty(ticket);
    for (agreement, terms) in settlement.agreements.iter_mut().zip(&ticket.terms) {
        *agreement = draw(generator, terms);
    }
    settlement
}

/// Free-deal hours up to `most`, with a pay that is right.
fn free_part(generator: &mut Generator, terms: &Terms, most: u16) -> Agreement {
    let free_deal_hours = generator.between(0, most);
    let pay = generator.between(0, terms.joint_gain);
    Agreement {
        tariff_hours: 0,
        free_deal_hours,
        pay: if free_deal_hours == 0 { 0 } else { pay },
    }
}

/// Pairs take hours at random while both parties have some.
fn within_hours(generator: &mut Generator, ticket: &Ticket) -> Settlement {
    let mut settlement = Settlement::empty(ticket);
    let mut growers = ticket.grower_hours.clone();
    let mut pilots = ticket.pilot_hours.clone();
    let full = generator.once_in(2);
    for pair in 0..ticket.pairs() {
        let terms = &ticket.terms[pair];
        let (grower, pilot) = (pair / ticket.pilots(), pair % ticket.pilots());
        let most = growers[grower].min(pilots[pilot]);
        let mut agreement = free_part(generator, terms, most.min(terms.free_cap));
        let left = terms.tariff_cap.min(most - agreement.free_deal_hours);
        agreement.tariff_hours = if full {
            left
        } else {
            generator.between(0, left)
        };
        let taken = agreement.tariff_hours + agreement.free_deal_hours;
        growers[grower] -= taken;
        pilots[pilot] -= taken;
        settlement.agreements[pair] = agreement;
    }
    settlement
}

fn one_field_changed(generator: &mut Generator, sound: &Settlement) -> Settlement {
    let mut settlement = sound.clone();
    let pair = generator.below(settlement.agreements.len());
    let agreement = &mut settlement.agreements[pair];
    let field = match generator.below(3) {
        0 => &mut agreement.tariff_hours,
        1 => &mut agreement.free_deal_hours,
        _ => &mut agreement.pay,
    };
    *field = match generator.below(4) {
        0 => field.saturating_sub(1),
        1 => *field + 1,
        2 => generator.between(0, 60),
        _ => generator.between(0, 600),
    };
    settlement
}

/// One hour less in one deal, one more in another, where the first has any.
fn hour_moved(generator: &mut Generator, sound: &Settlement) -> Settlement {
    let mut settlement = sound.clone();
    let from = generator.below(settlement.agreements.len());
    let to = generator.below(settlement.agreements.len());
    let giver = &mut settlement.agreements[from];
    if giver.tariff_hours > 0 {
        giver.tariff_hours -= 1;
    } else if giver.free_deal_hours > 0 {
        giver.free_deal_hours -= 1;
    }
    if giver.free_deal_hours == 0 {
        giver.pay = 0;
    }
    let taker = &mut settlement.agreements[to];
    if generator.once_in(2) {
        taker.tariff_hours += 1;
    } else {
        taker.free_deal_hours += 1;
    }
    settlement
}

/// A sound settlement of a ticket with the first of the growers or pilots only, or of the same parties the other way.
fn other_size(generator: &mut Generator, ticket: &Ticket) -> Settlement {
    let (growers, pilots) = (ticket.growers(), ticket.pilots());
    let mut other = ticket.clone();
    if generator.once_in(2) {
        std::mem::swap(&mut other.grower_hours, &mut other.pilot_hours);
    } else {
        other.grower_hours.truncate(1 + generator.below(growers));
        other.pilot_hours.truncate(1 + generator.below(pilots));
        other.terms.truncate(other.pairs());
    }
    settled(&other)
}
