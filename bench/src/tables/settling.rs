//! Settling from a ticket's bytes to a settlement's, the guess on squares, and the method of turns.

use std::hint::black_box;
use std::time::Duration;

use super::{SETTLEMENT_BYTES, Table, mean_times, ratio, time};
use crate::draw::shapes::Shape;
use crate::lemon::{Begin, best_total};
use crate::plain::method::{Rises, Turns, settle_ticket};
use crate::plain::settle::{certified_guess, settle};
use crate::plain::squares::TicketSquares;
use crate::plain::ticket::{CENTS, Ticket};
use crate::proved;
use crate::timing::median_of_three;

/// Where there is nothing to say.
const DASH: &str = "–";

/// From bytes to bytes, beside what LEMON takes for the best total.
pub fn settling(shapes: &[Shape]) -> Table {
    let header = [
        "settle",
        "tickets",
        "proved",
        "plain Rust",
        "ratio",
        "slowest ticket, proved",
        "LEMON",
        "proved to LEMON",
    ];
    row_by_row(&header, shapes, settling_row)
}

/// A row for each of these shapes.
fn row_by_row(header: &[&str], shapes: &[Shape], row: impl Fn(&Shape) -> Vec<String>) -> Table {
    let mut table = Table::new(header);
    for shape in shapes {
        eprintln!("{}: {} ..", header[0], shape.name);
        table.push(shape.name, row(shape));
    }
    table
}

fn settling_row(shape: &Shape) -> Vec<String> {
    let files: Vec<_> = shape.tickets.iter().map(Ticket::bytes).collect();
    let (mut one, mut other) = ([0; SETTLEMENT_BYTES], [0; SETTLEMENT_BYTES]);
    let [proved, plain] = mean_times(
        &files,
        [
            &mut |file| proved::settle(file, &mut one).is_ok(),
            &mut |file| settle(file, &mut other).is_ok(),
        ],
    );
    let lemon = lemon_time(shape);
    vec![
        files.len().to_string(),
        time(proved),
        time(plain),
        ratio(proved, plain),
        time(slowest(&files)),
        lemon.map_or(DASH.to_string(), time),
        lemon.map_or(DASH.to_string(), |lemon| ratio(proved, lemon)),
    ]
}

/// The time of the ticket that the proved settling takes longest for.
fn slowest(files: &[Vec<u8>]) -> Duration {
    let mut settlement = [0; SETTLEMENT_BYTES];
    files
        .iter()
        .map(|file| median_of_three(|| assert!(proved::settle(file, &mut settlement).is_ok())))
        .max()
        .expect("a row has tickets")
}

/// The best total of tickets without tariff deals, if LEMON is there: with the first flow from which it is quicker.
fn lemon_time(shape: &Shape) -> Option<Duration> {
    if !shape.is_only_free() {
        return None;
    }
    let squares = squares_of(&shape.tickets);
    best_total(&squares[0], Begin::Empty)?;
    let times = mean_times(
        &squares,
        [
            &mut |ticket| best_total(ticket, Begin::Empty).is_some(),
            &mut |ticket| best_total(ticket, Begin::Full).is_some(),
        ],
    );
    times.into_iter().min()
}

fn squares_of(tickets: &[Ticket]) -> Vec<TicketSquares> {
    tickets.iter().map(TicketSquares::of).collect()
}

/// From a ticket's squares to a settlement's, beside the method of turns.
pub fn guessing(shapes: &[Shape]) -> Table {
    let header = [
        "on squares, plain Rust",
        "method of turns",
        "guess and test",
        "turns to guess",
        "in cents",
        "cents to euros",
        "guesses refused",
    ];
    row_by_row(&header, shapes, guessing_row)
}

fn guessing_row(shape: &Shape) -> Vec<String> {
    let tickets = &shape.tickets;
    let in_cents: Vec<_> = tickets
        .iter()
        .map(|ticket| ticket.with_amounts_times(CENTS))
        .collect();
    let [squares, squares_in_cents] = [tickets, &in_cents].map(|tickets| squares_of(tickets));
    // Right after one another the two would be quicker, as guesses of one ticket: they go the same ways.
    let [euros, turns] = guess_and_turns(&squares, tickets);
    let [cents, _] = guess_and_turns(&squares_in_cents, tickets);
    let all: Vec<_> = squares.iter().chain(&squares_in_cents).collect();
    let refused = all
        .iter()
        .filter(|squares| certified_guess(squares).is_none());
    vec![
        time(turns),
        time(euros),
        ratio(turns, euros),
        time(cents),
        ratio(cents, euros),
        format!("{} of {}", refused.count(), all.len()),
    ]
}

/// The guess and its test of some tickets, by turns with the method of turns of others.
fn guess_and_turns(squares: &[TicketSquares], tickets: &[Ticket]) -> [Duration; 2] {
    let inputs: Vec<_> = squares.iter().zip(tickets).collect();
    mean_times(
        &inputs,
        [
            &mut |(squares, _)| is_done(certified_guess(squares)),
            &mut |(_, ticket)| is_done(settle_ticket(ticket, Rises::Jumps)),
        ],
    )
}

/// True, once something has been worked out.
fn is_done<T>(result: T) -> bool {
    black_box(result);
    true
}

/// The turns of the method that is proved to end, and how many more they are if one price rises at a time.
pub fn turns(shapes: &[Shape]) -> Table {
    let header = [
        "method of turns",
        "turns",
        "of them jumps",
        "turns without jumps",
        "plain Rust without jumps",
    ];
    row_by_row(&header, shapes, turns_row)
}

fn turns_row(shape: &Shape) -> Vec<String> {
    let tickets = &shape.tickets;
    let count = tickets.len() as u64;
    let with = all_turns(tickets, Rises::Jumps);
    let without = all_turns(tickets, Rises::ByOne);
    let slow = median_of_three(|| assert_eq!(all_turns(tickets, Rises::ByOne), without));
    vec![
        (with.all() / count).to_string(),
        (with.jumps / count).to_string(),
        (without.all() / count).to_string(),
        time(slow / count as u32),
    ]
}

/// The turns of all tickets together.
fn all_turns(tickets: &[Ticket], rises: Rises) -> Turns {
    let mut sum = Turns::default();
    for ticket in tickets {
        sum += settle_ticket(ticket, rises).1;
    }
    sum
}
