//! Valid tickets drawn from a seed.

use super::generator::Generator;
use crate::plain::ticket::{Terms, Ticket};

/// From where the numbers of a ticket are drawn.
#[derive(Clone, Copy, Debug, PartialEq, Eq)]
pub enum Style {
    /// All ranges whole.
    Wide,
    /// Few hours, small caps and amounts: many ties.
    Tight,
    /// Pilots have fewer hours than growers, amounts are few: prices climb.
    Scarce,
    /// The first and last numbers of each range, and of numbers of one byte and of two.
    Edges,
    /// Tariff caps are 0.
    OnlyFree,
    /// Free caps are 0.
    OnlyTariff,
}

pub const STYLES: [Style; 6] = [
    Style::Wide,
    Style::Tight,
    Style::Scarce,
    Style::Edges,
    Style::OnlyFree,
    Style::OnlyTariff,
];

/// A ticket of any size and style, small ones more often.
pub fn any_ticket(generator: &mut Generator) -> Ticket {
    let (growers, pilots) = any_size(generator);
    let style = generator.one_of(&STYLES);
    ticket(generator, growers, pilots, style)
}

/// The same of a style.
pub fn any_ticket_of(generator: &mut Generator, style: Style) -> Ticket {
    let (growers, pilots) = any_size(generator);
    ticket(generator, growers, pilots, style)
}

fn any_size(generator: &mut Generator) -> (usize, usize) {
    let most = generator.one_of(&[2, 3, 4, 6, 9, 16]);
    (1 + generator.below(most), 1 + generator.below(most))
}

pub fn ticket(generator: &mut Generator, growers: usize, pilots: usize, style: Style) -> Ticket {
    let mut party_hours = |pilot| hours(generator, style, pilot);
    let mut ticket = Ticket {
        grower_hours: (0..growers).map(|_| party_hours(false)).collect(),
        pilot_hours: (0..pilots).map(|_| party_hours(true)).collect(),
        terms: (0..growers * pilots)
            .map(|_| terms(generator, style))
            .collect(),
    };
    make_valid(&mut ticket);
    ticket
}

/// A ticket without its tariff deals.
pub fn free_deals_of(ticket: &Ticket) -> Ticket {
    let only_free = |terms: &Terms| Terms {
        free_cap: terms.free_cap,
        joint_gain: terms.joint_gain,
        ..Terms::default()
    };
    Ticket {
        terms: ticket.terms.iter().map(only_free).collect(),
        ..ticket.clone()
    }
}

/// Takes away deals of who has no hours, and amounts of deals without a cap.
pub fn make_valid(ticket: &mut Ticket) {
    let pilots = ticket.pilots();
    for (pair, terms) in ticket.terms.iter_mut().enumerate() {
        let without_hours =
            ticket.grower_hours[pair / pilots] == 0 || ticket.pilot_hours[pair % pilots] == 0;
        if without_hours || terms.tariff_cap == 0 {
            (terms.tariff_cap, terms.tariff_gain, terms.tariff_pay) = (0, 0, 0);
        }
        if without_hours || terms.free_cap == 0 {
            (terms.free_cap, terms.joint_gain) = (0, 0);
        }
    }
}

fn hours(generator: &mut Generator, style: Style, pilot: bool) -> u16 {
    match style {
        Style::Tight => generator.between(0, 4),
        Style::Scarce if pilot => generator.between(0, 15),
        Style::Scarce => generator.between(20, 60),
        Style::Edges => generator.one_of(&[0, 1, 59, 60]),
        Style::Wide | Style::OnlyFree | Style::OnlyTariff => generator.between(0, 60),
    }
}

fn terms(generator: &mut Generator, style: Style) -> Terms {
    let tariff_cap = match style {
        Style::OnlyFree => 0,
        _ => cap(generator, style),
    };
    let free_cap = match style {
        Style::OnlyTariff => 0,
        _ => cap(generator, style),
    };
    Terms {
        tariff_cap,
        tariff_gain: amount(generator, style, tariff_cap),
        tariff_pay: amount(generator, style, tariff_cap),
        free_cap,
        joint_gain: amount(generator, style, free_cap),
    }
}

fn cap(generator: &mut Generator, style: Style) -> u16 {
    match style {
        Style::Tight => generator.between(0, 3),
        Style::Edges => generator.one_of(&[0, 1, 59, 60]),
        _ if generator.once_in(5) => 0,
        Style::Scarce => generator.between(1, 20),
        _ => generator.between(1, 60),
    }
}

fn amount(generator: &mut Generator, style: Style, cap: u16) -> u16 {
    match style {
        _ if cap == 0 => 0,
        Style::Tight => generator.between(0, 5),
        Style::Scarce => generator.one_of(&[60, 61, 80, 200, 201]),
        Style::Edges => generator.one_of(&[0, 1, 127, 128, 499, 500]),
        Style::Wide | Style::OnlyFree | Style::OnlyTariff => generator.between(0, 500),
    }
}
