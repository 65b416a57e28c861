//! Calls on an open market: accepted ones, and refused ones of each kind.

use super::generator::Generator;
use crate::plain::Refusal;
use crate::plain::open_market::{CALL_NUMBERS, Call};
use crate::plain::ticket::{MOST_AMOUNT, MOST_HOURS, Terms, Ticket};

/// What is drawn, and so what the answer must be.
#[derive(Clone, Copy, Debug, PartialEq, Eq)]
pub enum Kind {
    Hours,
    NoHours,
    HoursAboveLimit,
    HoursOfNobody,
    Terms,
    NoDeals,
    /// A cap above its limit, or an amount.
    TermAboveLimit,
    AmountWithoutCap,
    CapWithoutHours,
    TermsOfNobody,
}

/// Often enough a call changes what others rest on: hours come and go, and deals after them.
const KINDS: [Kind; 14] = [
    Kind::Hours,
    Kind::Hours,
    Kind::NoHours,
    Kind::HoursAboveLimit,
    Kind::HoursOfNobody,
    Kind::Terms,
    Kind::Terms,
    Kind::Terms,
    Kind::Terms,
    Kind::NoDeals,
    Kind::TermAboveLimit,
    Kind::AmountWithoutCap,
    Kind::CapWithoutHours,
    Kind::TermsOfNobody,
];

impl Kind {
    pub fn name(self) -> &'static str {
        match self {
            Kind::Hours => "hours",
            Kind::NoHours => "hours 0",
            Kind::HoursAboveLimit => "hours above their limit",
            Kind::HoursOfNobody => "hours of nobody",
            Kind::Terms => "terms of a pair",
            Kind::NoDeals => "terms all 0",
            Kind::TermAboveLimit => "a cap or an amount above its limit",
            Kind::AmountWithoutCap => "an amount in a deal of cap 0",
            Kind::CapWithoutHours => "a cap, one of the two without hours",
            Kind::TermsOfNobody => "terms of nobody",
        }
    }

    pub fn refusal(self) -> Option<Refusal> {
        match self {
            Kind::Hours | Kind::NoHours | Kind::Terms | Kind::NoDeals => None,
            Kind::HoursOfNobody | Kind::TermsOfNobody => Some(Refusal::NoSuchParty),
            Kind::HoursAboveLimit
            | Kind::TermAboveLimit
            | Kind::AmountWithoutCap
            | Kind::CapWithoutHours => Some(Refusal::AgainstLimits),
        }
    }
}

/// A call on a market with this ticket.
pub fn any_call(generator: &mut Generator, ticket: &Ticket) -> (Kind, Call) {
    loop {
        let kind = generator.one_of(&KINDS);
        if let Some(call) = call_of(generator, ticket, kind) {
            return (kind, call);
        }
    }
}

/// Numbers that are no call: of another kind.
pub fn no_call(generator: &mut Generator, ticket: &Ticket) -> [u16; CALL_NUMBERS] {
    let mut numbers = any_call(generator, ticket).1.numbers();
    numbers[0] = generator.one_of(&[0, 4, 5, 256 + 1, 0xffff]);
    numbers
}

/// A call that gives a pair of two who have hours other terms than it has, both of its deals.
pub fn other_terms(generator: &mut Generator, ticket: &Ticket) -> Call {
    loop {
        let (grower, pilot) = pair(generator, ticket);
        let terms = within_limits(generator);
        let is_both = terms.tariff_cap > 0 && terms.free_cap > 0;
        if have_hours(ticket, grower, pilot) && is_both && terms != *ticket.terms(grower, pilot) {
            return pair_call(grower, pilot, terms);
        }
    }
}

/// A call of a kind, if the ticket allows one.
fn call_of(generator: &mut Generator, ticket: &Ticket, kind: Kind) -> Option<Call> {
    let (grower, pilot) = pair(generator, ticket);
    let hours = match kind {
        Kind::NoHours => 0,
        Kind::HoursAboveLimit => above(generator, MOST_HOURS),
        Kind::HoursOfNobody => generator.one_of(&[0, 1, MOST_HOURS, MOST_HOURS + 1]),
        _ => number_to(generator, 1, MOST_HOURS),
    };
    match kind {
        Kind::Hours | Kind::NoHours | Kind::HoursAboveLimit => {
            Some(hours_call(generator.once_in(2), grower, pilot, hours))
        }
        Kind::HoursOfNobody => Some(hours_call(
            generator.once_in(2),
            nobody(generator, ticket.growers()),
            nobody(generator, ticket.pilots()),
            hours,
        )),
        Kind::NoDeals => Some(pair_call(grower, pilot, Terms::default())),
        Kind::Terms => have_hours(ticket, grower, pilot)
            .then(|| pair_call(grower, pilot, within_limits(generator))),
        Kind::CapWithoutHours => without_hours(generator, ticket),
        Kind::TermAboveLimit => Some(pair_call(grower, pilot, above_limit(generator))),
        Kind::AmountWithoutCap => Some(pair_call(grower, pilot, amount_without_cap(generator))),
        Kind::TermsOfNobody => Some(terms_of_nobody(generator, ticket)),
    }
}

fn pair(generator: &mut Generator, ticket: &Ticket) -> (usize, usize) {
    (
        generator.below(ticket.growers()),
        generator.below(ticket.pilots()),
    )
}

fn have_hours(ticket: &Ticket, grower: usize, pilot: usize) -> bool {
    ticket.grower_hours[grower] > 0 && ticket.pilot_hours[pilot] > 0
}

fn hours_call(of_grower: bool, grower: usize, pilot: usize, hours: u16) -> Call {
    let (grower, pilot) = (grower as u16, pilot as u16);
    if of_grower {
        Call::GrowerHours { grower, hours }
    } else {
        Call::PilotHours { pilot, hours }
    }
}

fn pair_call(grower: usize, pilot: usize, terms: Terms) -> Call {
    Call::Pair {
        grower: grower as u16,
        pilot: pilot as u16,
        terms,
    }
}

/// A party that is not among so many: the next, or one at the width of a byte or of the number.
fn nobody(generator: &mut Generator, count: usize) -> usize {
    generator.one_of(&[count, count, count + 1, 256, 256 + count - 1, 0xffff])
}

/// One of the two is nobody, or both; the terms are within the limits or not.
fn terms_of_nobody(generator: &mut Generator, ticket: &Ticket) -> Call {
    let (mut grower, mut pilot) = pair(generator, ticket);
    let which = generator.below(3);
    if which != 0 {
        grower = nobody(generator, ticket.growers());
    }
    if which != 1 {
        pilot = nobody(generator, ticket.pilots());
    }
    let terms = match generator.below(3) {
        0 => above_limit(generator),
        1 => amount_without_cap(generator),
        _ => within_limits(generator),
    };
    pair_call(grower, pilot, terms)
}

/// Terms with a cap, for a pair in which somebody has no hours, if there is one.
fn without_hours(generator: &mut Generator, ticket: &Ticket) -> Option<Call> {
    let pairs: Vec<_> = (0..ticket.growers())
        .flat_map(|grower| (0..ticket.pilots()).map(move |pilot| (grower, pilot)))
        .filter(|&(grower, pilot)| !have_hours(ticket, grower, pilot))
        .collect();
    if pairs.is_empty() {
        return None;
    }
    let (grower, pilot) = generator.one_of(&pairs);
    let mut terms = within_limits(generator);
    if terms.tariff_cap == 0 && terms.free_cap == 0 {
        terms.free_cap = 1;
    }
    Some(pair_call(grower, pilot, terms))
}

fn within_limits(generator: &mut Generator) -> Terms {
    let mut terms = Terms::default();
    if !generator.once_in(4) {
        terms.tariff_cap = number_to(generator, 1, MOST_HOURS);
        terms.tariff_gain = number_to(generator, 0, MOST_AMOUNT);
        terms.tariff_pay = number_to(generator, 0, MOST_AMOUNT);
    }
    if !generator.once_in(4) {
        terms.free_cap = number_to(generator, 1, MOST_HOURS);
        terms.joint_gain = number_to(generator, 0, MOST_AMOUNT);
    }
    terms
}

/// One of the five above its limit, the others within theirs.
fn above_limit(generator: &mut Generator) -> Terms {
    let mut terms = within_limits(generator);
    match generator.below(5) {
        0 => terms.tariff_cap = above(generator, MOST_HOURS),
        1 => terms.tariff_gain = above(generator, MOST_AMOUNT),
        2 => terms.tariff_pay = above(generator, MOST_AMOUNT),
        3 => terms.free_cap = above(generator, MOST_HOURS),
        _ => terms.joint_gain = above(generator, MOST_AMOUNT),
    }
    terms
}

/// An amount in a deal of cap 0.
fn amount_without_cap(generator: &mut Generator) -> Terms {
    let mut terms = within_limits(generator);
    let amount = number_to(generator, 1, MOST_AMOUNT);
    match generator.below(3) {
        0 => (terms.tariff_cap, terms.tariff_gain) = (0, amount),
        1 => (terms.tariff_cap, terms.tariff_pay) = (0, amount),
        _ => (terms.free_cap, terms.joint_gain) = (0, amount),
    }
    terms
}

/// A number up to `most`, the first and the last more often.
fn number_to(generator: &mut Generator, least: u16, most: u16) -> u16 {
    match generator.below(8) {
        0 => least,
        1 => most,
        _ => generator.between(least, most),
    }
}

/// A number above `most`: the next, or one whose low byte is within.
fn above(generator: &mut Generator, most: u16) -> u16 {
    generator.one_of(&[
        most + 1,
        most + 1,
        0x100 * (most / 0x100 + 1),
        0x8000,
        0xffff,
    ])
}
