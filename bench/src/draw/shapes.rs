//! The tickets of the benchmark.

use super::generator::Generator;
use super::tickets::{Style, ticket};
use crate::plain::ticket::{MOST_AMOUNT, MOST_HOURS, Terms, Ticket};

/// Tickets of one kind.
pub struct Shape {
    pub name: &'static str,
    pub tickets: Vec<Ticket>,
}

impl Shape {
    /// No ticket has a tariff deal.
    pub fn is_only_free(&self) -> bool {
        !self.tickets.iter().any(Ticket::has_tariff_deal)
    }
}

/// A kind of ticket that is drawn from a seed.
#[derive(Clone, Copy)]
pub struct Kind {
    pub name: &'static str,
    pub draw: fn(&mut Generator) -> Ticket,
}

/// How many tickets of a kind are in the benchmark.
const DRAWN: u64 = 16;

impl Kind {
    /// Tickets of the first seeds.
    pub fn shape(&self) -> Shape {
        let draw = |seed| (self.draw)(&mut Generator::new(seed));
        Shape {
            name: self.name,
            tickets: (0..DRAWN).map(draw).collect(),
        }
    }
}

pub const RANDOM: Kind = kind("16 by 16, random", |generator| wide(generator, 16));

pub const ONLY_FREE: Kind = kind("16 by 16, only free deals", |generator| {
    ticket(generator, 16, 16, Style::OnlyFree)
});

pub const KINDS: [Kind; 11] = [
    kind("1 by 1, random", |generator| wide(generator, 1)),
    kind("4 by 4, random", |generator| wide(generator, 4)),
    RANDOM,
    kind("16 by 16, few amounts, pilots scarce", |generator| {
        ticket(generator, 16, 16, Style::Scarce)
    }),
    kind("16 by 16, full", full),
    kind("16 by 16, only tariff deals", |generator| {
        ticket(generator, 16, 16, Style::OnlyTariff)
    }),
    kind(
        "16 by 16, caps 1 to 5, pilots short of hours",
        small_and_short,
    ),
    ONLY_FREE,
    kind("16 by 16, only free deals, caps 1 to 10", |generator| {
        capped(generator, 10)
    }),
    kind("16 by 16, only free deals, caps 1 to 3", |generator| {
        capped(generator, 3)
    }),
    kind("16 by 16, only free deals, caps 1", |generator| {
        capped(generator, 1)
    }),
];

const fn kind(name: &'static str, draw: fn(&mut Generator) -> Ticket) -> Kind {
    Kind { name, draw }
}

/// Drawn tickets of each kind, and tickets in which prices go to war.
pub fn shapes() -> Vec<Shape> {
    KINDS
        .iter()
        .map(Kind::shape)
        .chain(wars())
        .chain([slowest()])
        .collect()
}

fn wars() -> [Shape; 5] {
    [
        one(
            "16 equal growers, 15 equal pilots, caps 60",
            war(16, 15, free_deals),
        ),
        one(
            "16 equal growers, 15 equal pilots, caps 1 to 8",
            war(16, 15, small_caps),
        ),
        one(
            "16 by 16, equal, one hour short",
            one_hour_short(free_deals),
        ),
        one(
            "the same, worthless tariffs",
            one_hour_short(worthless_tariffs),
        ),
        one(
            "the same, tariffs good for pilots",
            one_hour_short(tariffs_for_pilots),
        ),
    ]
}

/// The slowest ticket that the program `slow` has found.
fn slowest() -> Shape {
    let numbers: Vec<u16> = include_str!("../../slowest.list")
        .lines()
        .filter(|line| !line.starts_with('#'))
        .flat_map(str::split_whitespace)
        .map(|word| word.parse().expect("the list has numbers only"))
        .collect();
    one("the slowest ticket found", Ticket::from_numbers(&numbers))
}

fn one(name: &'static str, ticket: Ticket) -> Shape {
    Shape {
        name,
        tickets: vec![ticket],
    }
}

fn wide(generator: &mut Generator, side: usize) -> Ticket {
    ticket(generator, side, side, Style::Wide)
}

/// Only free deals, with caps of at most so many hours.
fn capped(generator: &mut Generator, most: u16) -> Ticket {
    let mut ticket = (ONLY_FREE.draw)(generator);
    for terms in &mut ticket.terms {
        if terms.free_cap > 0 {
            terms.free_cap = generator.between(1, most);
        }
    }
    ticket
}

/// All hours 60, all caps above 0, and amounts that differ.
fn full(generator: &mut Generator) -> Ticket {
    war(16, 16, |_, _| Terms {
        tariff_cap: generator.between(1, MOST_HOURS),
        tariff_gain: generator.between(1, MOST_AMOUNT),
        tariff_pay: generator.between(1, MOST_AMOUNT),
        free_cap: generator.between(1, MOST_HOURS),
        joint_gain: generator.between(1, MOST_AMOUNT),
    })
}

/// Small caps, amounts that lie close together, and pilots who each lack a few hours: the hardest kind of ticket found.
fn small_and_short(generator: &mut Generator) -> Ticket {
    let mut ticket = war(16, 16, |_, _| Terms {
        tariff_cap: generator.between(1, 5),
        tariff_gain: generator.between(300, MOST_AMOUNT),
        tariff_pay: generator.between(300, MOST_AMOUNT),
        free_cap: generator.between(1, 5),
        joint_gain: generator.between(300, MOST_AMOUNT),
    });
    for hours in &mut ticket.pilot_hours {
        *hours -= generator.between(1, 6);
    }
    ticket
}

/// Equal growers and equal pilots, who all have all hours, with terms for each pair.
fn war(growers: usize, pilots: usize, mut terms: impl FnMut(usize, usize) -> Terms) -> Ticket {
    Ticket {
        grower_hours: vec![MOST_HOURS; growers],
        pilot_hours: vec![MOST_HOURS; pilots],
        terms: (0..growers * pilots)
            .map(|pair| terms(pair / pilots, pair % pilots))
            .collect(),
    }
}

/// Pilots have one hour less than growers in total.
fn one_hour_short(terms: impl FnMut(usize, usize) -> Terms) -> Ticket {
    let mut ticket = war(16, 16, terms);
    ticket.pilot_hours[15] -= 1;
    ticket
}

fn free_deals(_: usize, _: usize) -> Terms {
    Terms {
        free_cap: MOST_HOURS,
        joint_gain: MOST_AMOUNT,
        ..Terms::default()
    }
}

fn small_caps(grower: usize, pilot: usize) -> Terms {
    Terms {
        free_cap: 1 + ((3 * grower + 5 * pilot) % 8) as u16,
        ..free_deals(grower, pilot)
    }
}

fn worthless_tariffs(grower: usize, pilot: usize) -> Terms {
    Terms {
        tariff_cap: MOST_HOURS,
        ..free_deals(grower, pilot)
    }
}

fn tariffs_for_pilots(grower: usize, pilot: usize) -> Terms {
    Terms {
        tariff_cap: MOST_HOURS,
        tariff_gain: 10,
        tariff_pay: MOST_AMOUNT,
        ..free_deals(grower, pilot)
    }
}
