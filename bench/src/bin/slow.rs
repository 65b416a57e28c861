//! Looks for tickets that the proved settling takes long for: draws many, and climbs from the slowest ones, change by change.
//! Prints the records as they fall, and at the end the slowest ticket, as a list that `exchange pack` reads.
//!
//! `cargo run --release --bin slow -- [SECONDS] [SEED]`; without numbers it takes 60 seconds, from seed 0. The same seed draws
//! the same tickets and changes; how many there are, and which of them are slower, depends on the machine.

use std::time::{Duration, Instant};

use exchange_bench::arguments::numbers_given;
use exchange_bench::draw::changes::changed;
use exchange_bench::draw::generator::Generator;
use exchange_bench::draw::shapes::{KINDS, shapes};
use exchange_bench::draw::tickets::{STYLES, ticket};
use exchange_bench::plain::method::{Rises, settle_ticket};
use exchange_bench::plain::settle::certified_guess;
use exchange_bench::plain::squares::TicketSquares;
use exchange_bench::plain::ticket::Ticket;
use exchange_bench::proved;
use exchange_bench::tables::{SETTLEMENT_BYTES, time};
use exchange_bench::timing::once;

/// From so many tickets climbs begin; the slower half of them goes on, and half of that, down to one.
const CLIMBS: usize = 8;

/// Draws, and climbs of each number, get one part each of the time.
const PARTS: u32 = 2 + CLIMBS.ilog2();

/// Changes that are tried of one ticket before those of the next.
const TRIES: usize = 20;

/// A ticket takes longer than another if so many calls in a row do.
const CALLS: usize = 5;

/// So many calls give the time that is printed at the end.
const LAST_CALLS: usize = 101;

fn main() {
    let [seconds, seed] = numbers_given([60, 0]);
    let part = Duration::from_secs(seconds) / PARTS;
    let mut search = Search {
        generator: Generator::new(seed),
        start: Instant::now(),
        settled: 0,
        record: Duration::ZERO,
    };
    let mut climbs = search.drawn(part);
    for round in 2..=PARTS {
        search.climb(&mut climbs, part * round);
        climbs.sort_by_key(|ticket| std::cmp::Reverse(ticket.time));
        climbs.truncate(climbs.len().div_ceil(2));
    }
    print(&climbs[0].ticket, search.settled);
}

/// A ticket, and the least time that settling it was seen to take.
struct Timed {
    ticket: Ticket,
    time: Duration,
}

struct Search {
    generator: Generator,
    start: Instant,
    settled: u64,
    record: Duration,
}

impl Search {
    /// The slowest of drawn tickets.
    fn drawn(&mut self, until: Duration) -> Vec<Timed> {
        let mut slowest: Vec<Timed> = Vec::new();
        for ticket in shapes().into_iter().flat_map(|shape| shape.tickets) {
            self.keep(&mut slowest, ticket, "of the benchmark");
        }
        while self.start.elapsed() < until {
            let ticket = self.draw();
            self.keep(&mut slowest, ticket, "drawn");
        }
        slowest
    }

    fn draw(&mut self) -> Ticket {
        let kind = self.generator.below(KINDS.len() + STYLES.len());
        match kind.checked_sub(KINDS.len()) {
            None => (KINDS[kind].draw)(&mut self.generator),
            Some(style) => ticket(&mut self.generator, 16, 16, STYLES[style]),
        }
    }

    /// Puts a ticket among the slowest in place of the quickest of them, if it is slower.
    fn keep(&mut self, slowest: &mut Vec<Timed>, ticket: Ticket, words: &str) {
        let quickest = (0..slowest.len()).min_by_key(|&place| slowest[place].time);
        match quickest.filter(|_| slowest.len() == CLIMBS) {
            None => slowest.extend(self.slower(ticket, Duration::ZERO, words)),
            Some(place) => {
                if let Some(slower) = self.slower(ticket, slowest[place].time, words) {
                    slowest[place] = slower;
                }
            }
        }
    }

    fn climb(&mut self, climbs: &mut [Timed], until: Duration) {
        while self.start.elapsed() < until {
            for (place, timed) in climbs.iter_mut().enumerate() {
                self.climb_from(timed, &format!("climb {place}"));
            }
        }
    }

    /// Takes every change that makes settling slower. What a disturbed time was is forgotten first.
    fn climb_from(&mut self, timed: &mut Timed, words: &str) {
        timed.time = self
            .least_time(&timed.ticket.bytes(), Duration::ZERO)
            .unwrap_or_default();
        for _ in 0..TRIES {
            let other = changed(&mut self.generator, &timed.ticket);
            if let Some(slower) = self.slower(other, timed.time, words) {
                *timed = slower;
            }
        }
    }

    /// A ticket with its time, if that is longer.
    fn slower(&mut self, ticket: Ticket, than: Duration, words: &str) -> Option<Timed> {
        let least = self.least_time(&ticket.bytes(), than)?;
        if least > self.record {
            self.record = least;
            let seconds = self.start.elapsed().as_secs();
            println!("{seconds} s, {words}: {}", time(least));
        }
        Some(Timed {
            ticket,
            time: least,
        })
    }

    /// The least time of several calls, if all are longer.
    fn least_time(&mut self, file: &[u8], than: Duration) -> Option<Duration> {
        let mut least = Duration::MAX;
        for _ in 0..CALLS {
            self.settled += 1;
            let time = settling_time(file);
            if time <= than {
                return None;
            }
            least = least.min(time);
        }
        Some(least)
    }
}

fn settling_time(file: &[u8]) -> Duration {
    let mut settlement = [0; SETTLEMENT_BYTES];
    once(|| assert!(proved::settle(file, &mut settlement).is_ok()))
}

/// The slowest ticket.
fn print(ticket: &Ticket, settled: u64) {
    let file = ticket.bytes();
    let mut times: Vec<_> = (0..LAST_CALLS).map(|_| settling_time(&file)).collect();
    times.sort_unstable();
    let [least, median] = [times[0], times[LAST_CALLS / 2]].map(time);
    let guess = match certified_guess(&TicketSquares::of(ticket)) {
        Some(_) => "passes its test",
        None => "is refused",
    };
    let turns = settle_ticket(ticket, Rises::Jumps).1.all();
    println!("\n# the slowest ticket of {settled} settlings: {median}, at the least {least}");
    println!("# its guess {guess}; the method of turns alone takes {turns} turns");
    println!("1 {} {}", ticket.growers(), ticket.pilots());
    println!("{}", list(&ticket.grower_hours));
    println!("{}", list(&ticket.pilot_hours));
    for pairs in ticket.terms.chunks_exact(ticket.pilots()) {
        let numbers: Vec<u16> = pairs.iter().flat_map(|terms| terms.numbers()).collect();
        println!("{}", list(&numbers));
    }
}

fn list(numbers: &[u16]) -> String {
    let words: Vec<_> = numbers.iter().map(u16::to_string).collect();
    words.join(" ")
}
