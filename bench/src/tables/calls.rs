//! A call on an open market, beside settling the same ticket from its bytes.

use std::ops::Range;
use std::time::Duration;

use super::{SETTLEMENT_BYTES, Table, mean_times, ratio, time};
use crate::draw::calls::other_terms;
use crate::draw::generator::Generator;
use crate::draw::shapes::{KINDS, Kind};
use crate::plain::open_market::{CALL_NUMBERS, Call, MARKET_NUMBERS, OpenMarket};
use crate::plain::settle::settle;
use crate::plain::ticket::Ticket;
use crate::proved;

/// Some kinds of tickets. In a small one it shows that the proved call copies lists for the longest.
const OF_CALLS: Range<usize> = 1..5;

/// A row for each kind of ticket.
pub fn calls() -> Table {
    let header = [
        "open market",
        "call, proved",
        "settle from bytes",
        "call to settle",
        "call, plain Rust",
        "settle from bytes",
        "call to settle",
    ];
    let mut table = Table::new(&header);
    for kind in &KINDS[OF_CALLS] {
        eprintln!("{}: {} ..", header[0], kind.name);
        let cells = times_of(kind)
            .into_iter()
            .flat_map(|[call, settle]| [time(call), time(settle), ratio(call, settle)]);
        table.push(kind.name, cells.collect());
    }
    table
}

/// A market of which one pair goes back and forth between two terms, so that every call changes the ticket.
struct Case {
    /// The market's place among all.
    place: usize,
    there: Step,
    back: Step,
}

/// A call, and the file of the ticket as it leaves it.
struct Step {
    call: Call,
    numbers: [u16; CALL_NUMBERS],
    file: Vec<u8>,
}

/// The proved call and settling, then those of plain Rust. All four meet the same tickets, and are timed by turns.
fn times_of(kind: &Kind) -> [[Duration; 2]; 2] {
    let tickets = kind.shape().tickets;
    let cases = cases(&tickets);
    let mut lists: Vec<_> = tickets.iter().map(proved_market).collect();
    let mut markets: Vec<_> = tickets.iter().map(plain_market).collect();
    let (mut one, mut other) = ([0; SETTLEMENT_BYTES], [0; SETTLEMENT_BYTES]);
    // Each function makes two calls, or settles two tickets.
    let times = mean_times(
        &cases,
        [
            &mut |case| {
                let list = &mut lists[case.place];
                case.steps()
                    .all(|step| proved::call(list, &step.numbers).is_ok())
            },
            &mut |case| {
                case.steps()
                    .all(|step| proved::settle(&step.file, &mut one).is_ok())
            },
            &mut |case| {
                let market = &mut markets[case.place];
                case.steps().all(|step| market.call(step.call).is_ok())
            },
            &mut |case| {
                case.steps()
                    .all(|step| settle(&step.file, &mut other).is_ok())
            },
        ],
    );
    let [proved_call, proved_settle, plain_call, plain_settle] = times.map(|time| time / 2);
    [[proved_call, proved_settle], [plain_call, plain_settle]]
}

impl Case {
    fn steps(&self) -> impl Iterator<Item = &Step> {
        [&self.there, &self.back].into_iter()
    }
}

fn cases(tickets: &[Ticket]) -> Vec<Case> {
    let case = |(place, ticket)| {
        let there = other_terms(&mut Generator::new(place as u64), ticket);
        let Call::Pair { grower, pilot, .. } = there else {
            panic!("other terms are those of a pair");
        };
        let terms = *ticket.terms(grower.into(), pilot.into());
        let back = Call::Pair {
            grower,
            pilot,
            terms,
        };
        Case {
            place,
            there: step(ticket, there),
            back: step(ticket, back),
        }
    };
    tickets.iter().enumerate().map(case).collect()
}

fn step(ticket: &Ticket, call: Call) -> Step {
    let mut market = plain_market(ticket);
    market.call(call).expect("the call is within the limits");
    Step {
        call,
        numbers: call.numbers(),
        file: market.ticket().bytes(),
    }
}

pub(super) fn proved_market(ticket: &Ticket) -> [u16; MARKET_NUMBERS] {
    let mut list = [0; MARKET_NUMBERS];
    proved::open(&ticket.bytes(), &mut list).expect("the ticket is good");
    list
}

fn plain_market(ticket: &Ticket) -> OpenMarket {
    OpenMarket::open(&ticket.bytes()).expect("the ticket is good")
}
