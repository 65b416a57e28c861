//! Counts the guesses that are refused by their test, on drawn tickets of each style and kind, in euros and in cents.
//!
//! `cargo run --release --bin guesses -- [TICKETS] [SEED]`; without numbers it draws a million, from seed 0.

use exchange_bench::arguments::numbers_given;
use exchange_bench::draw::generator::Generator;
use exchange_bench::draw::shapes::KINDS;
use exchange_bench::draw::tickets::{STYLES, any_ticket_of};
use exchange_bench::plain::settle::certified_guess;
use exchange_bench::plain::squares::TicketSquares;
use exchange_bench::plain::ticket::{CENTS, Ticket};
use exchange_bench::tables::Table;

const SORTS: usize = STYLES.len() + KINDS.len();

fn main() {
    let [tickets, seed] = numbers_given([1_000_000, 0]);
    let of_each = tickets.div_ceil(SORTS as u64);
    let mut generator = Generator::new(seed);
    let mut all = Count::default();
    let mut table = Table::new(&["guesses", "tickets", "refused", "refused in cents"]);
    let mut push = |name: &str, draw: &dyn Fn(&mut Generator) -> Ticket| {
        eprintln!("{name} ..");
        let count = Count::of((0..of_each).map(|_| draw(&mut generator)));
        all.add(&count);
        table.push(name, count.cells());
    };
    for style in STYLES {
        push(&format!("any size, {style:?}"), &|generator| {
            any_ticket_of(generator, style)
        });
    }
    for kind in KINDS {
        push(kind.name, &kind.draw);
    }
    table.push("all", all.cells());
    table.print();
}

#[derive(Default)]
struct Count {
    tickets: u64,
    refused: u64,
    refused_in_cents: u64,
}

impl Count {
    fn of(tickets: impl Iterator<Item = Ticket>) -> Count {
        let mut count = Count::default();
        for ticket in tickets {
            count.add(&Count {
                tickets: 1,
                refused: u64::from(is_refused(&ticket)),
                refused_in_cents: u64::from(is_refused(&ticket.with_amounts_times(CENTS))),
            });
        }
        count
    }

    fn add(&mut self, more: &Count) {
        self.tickets += more.tickets;
        self.refused += more.refused;
        self.refused_in_cents += more.refused_in_cents;
    }

    fn cells(&self) -> Vec<String> {
        [self.tickets, self.refused, self.refused_in_cents]
            .map(|number| number.to_string())
            .to_vec()
    }
}

fn is_refused(ticket: &Ticket) -> bool {
    certified_guess(&TicketSquares::of(ticket)).is_none()
}
