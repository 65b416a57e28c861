use std::ops::Range;

use exchange_bench::draw::calls::{any_call, no_call};
use exchange_bench::draw::damage::damaged_ticket_file;
use exchange_bench::draw::generator::Generator;
use exchange_bench::draw::tickets::any_ticket;
use exchange_bench::plain::Refusal;
use exchange_bench::plain::open_market::{
    CALL_NUMBERS, Call, GROWER_FREE_HOURS, MARKET_NUMBERS, OpenMarket, PILOT_FREE_HOURS,
    TICKET_NUMBERS,
};
use exchange_bench::plain::settlement::Settlement;
use exchange_bench::plain::ticket::Ticket;
use exchange_bench::proved;

use crate::buffers::{Room, same_answer};
use crate::old_caps::{assert_refused, kinds};
use crate::settle::assert_sound;
use crate::tally::Tally;

const TICKETS: usize = 20_000;
pub const MARKETS: usize = 20_000;
pub const MOST_CALLS: usize = 12;

/// A market opened by both, as the proved one's list. They hold the same.
fn opened(file: &[u8]) -> (Vec<u16>, OpenMarket) {
    let mut list = vec![0; MARKET_NUMBERS];
    proved::open(file, &mut list).expect("the ticket is good");
    let market = OpenMarket::open(file).expect("the ticket is good");
    assert_same(&list, &market);
    (list, market)
}

/// Tickets, settlements and free hours are the same, in every place, and settlements as files.
fn assert_same(list: &[u16], market: &OpenMarket) {
    assert_eq!(list, market.numbers());
    let mut file = [0; 1027];
    let length = proved::market_settlement(list, &mut file);
    assert_eq!(
        file[..length.expect("it has room")],
        market.settlement().bytes()
    );
}

/// The settlement that the proved market holds is sound for the ticket that it holds, every spare tried.
fn assert_holds_sound(list: &[u16], market: &OpenMarket) {
    let ticket = market.ticket();
    assert_eq!(list[..ticket.numbers().len()], ticket.numbers());
    assert_sound(&ticket, &held_settlement(list, &ticket));
}

/// The settlement that the proved market holds, from its file.
pub fn held_settlement(list: &[u16], ticket: &Ticket) -> Settlement {
    let mut file = [0; 1027];
    let length = proved::market_settlement(list, &mut file);
    let settlement = Settlement::read(&file[..length.expect("it has room")], ticket);
    settlement.expect("it is a settlement")
}

fn number(answer: Result<(), Refusal>) -> Result<(), u8> {
    answer.map_err(|refusal| refusal as u8)
}

#[test]
fn open_agrees() {
    let mut generator = Generator::new(20);
    let mut tally = Tally::default();
    for _ in 0..TICKETS {
        let ticket = any_ticket(&mut generator);
        let (damage, bytes) = damaged_ticket_file(&mut generator, &ticket);
        let room = generator.one_of(&Room::ALL);
        let length = room.length(&mut generator, MARKET_NUMBERS);
        let answer = same_answer(
            length,
            |list| proved::open(&bytes, list),
            |list| {
                let numbers = OpenMarket::open(&bytes)?.numbers();
                let front = list.get_mut(..MARKET_NUMBERS).ok_or(Refusal::NoRoom)?;
                front.copy_from_slice(&numbers);
                Ok(MARKET_NUMBERS)
            },
        );
        assert_refused(damage, answer.err());
        tally.compared(damage.name());
        tally.kind(room.name());
        tally.answered(answer);
    }
    tally.report("open");
    tally.expect_refusals((1..=10).chain([18]));
    tally.expect_kinds(kinds(""));
}

/// Calls one by one: answers, whole markets and files are the same, and what is drawn says what must be refused. A refused call
/// changes nothing, an accepted one leaves a sound settlement.
#[test]
fn calls_agree() {
    let mut generator = Generator::new(21);
    let mut tally = Tally::default();
    for _ in 0..MARKETS {
        let (mut list, mut market) = opened(&any_ticket(&mut generator).bytes());
        for _ in 0..generator.below(MOST_CALLS + 1) {
            let (kind, call) = any_call(&mut generator, &market.ticket());
            let before = list.clone();
            let answer = proved::call(&mut list, &call.numbers());
            assert_eq!(answer, number(market.call(call)), "{call:?}");
            assert_eq!(answer.err(), kind.refusal().map(|refusal| refusal as u8));
            assert_same(&list, &market);
            match answer {
                Ok(()) => assert_holds_sound(&list, &market),
                Err(_) => assert_eq!(list, before),
            }
            tally.compared(kind.name());
            tally.answered(answer);
            for (part, name) in PARTS {
                tally.kind_if(before[part.clone()] != list[part], name);
            }
        }
    }
    tally.report("calls, one by one");
    tally.expect_refusals([19, 20]);
    for (_, name) in PARTS {
        tally.expect_at_least(MARKETS as u64, name);
    }
}

/// The parts of a market's list, each of which must be met changed.
const PARTS: [(Range<usize>, &str); 4] = [
    (0..TICKET_NUMBERS, "the ticket changed"),
    (TICKET_NUMBERS..GROWER_FREE_HOURS, "the settlement changed"),
    (
        GROWER_FREE_HOURS..PILOT_FREE_HOURS,
        "growers' free hours changed",
    ),
    (
        PILOT_FREE_HOURS..MARKET_NUMBERS,
        "pilots' free hours changed",
    ),
];

/// How a list of calls is given.
#[derive(Clone, Copy)]
enum Given {
    Whole,
    /// The last call lacks some numbers.
    Cut,
    /// To a list that has no room for a market.
    ShortMarket,
}

impl Given {
    fn name(self) -> &'static str {
        match self {
            Given::Whole => "whole list",
            Given::Cut => "last call cut short",
            Given::ShortMarket => "market's list too short",
        }
    }
}

/// Lengths at which a part of a market ends, and the greatest that is too short.
const SHORT: [usize; 5] = [
    0,
    TICKET_NUMBERS,
    GROWER_FREE_HOURS,
    PILOT_FREE_HOURS,
    MARKET_NUMBERS - 1,
];

/// Lists of calls, in which some are none. The calls are drawn for the ticket as it is when they are made.
#[test]
fn lists_of_calls_agree() {
    let mut generator = Generator::new(22);
    let mut tally = Tally::default();
    for _ in 0..MARKETS {
        let (opened_list, opened) = opened(&any_ticket(&mut generator).bytes());
        let (mut calls, after) = drawn_calls(&mut generator, &opened);
        let given = generator.one_of(&[Given::Whole, Given::Cut, Given::ShortMarket]);
        let mut list = opened_list.clone();
        match given {
            Given::Whole => {}
            Given::Cut => calls.truncate(calls.len().saturating_sub(1 + generator.below(7))),
            Given::ShortMarket => list.truncate(generator.one_of(&SHORT)),
        }
        let before = list.clone();
        let answer = proved::call(&mut list, &calls);
        if matches!(given, Given::ShortMarket) {
            assert_eq!(answer, Err(Refusal::NoRoom as u8));
            assert_eq!(list, before);
        } else {
            let mut market = opened.clone();
            assert_eq!(answer, number(market.replay(&calls)));
            assert_same(&list, &market);
            assert_holds_sound(&list, &market);
            assert!(matches!(given, Given::Cut) || market == after);
        }
        tally.compared(given.name());
        tally.answered(answer);
    }
    tally.report("lists of calls");
    tally.expect_refusals([10, 19, 20]);
}

/// A list of calls, and the market after them.
fn drawn_calls(generator: &mut Generator, opened: &OpenMarket) -> (Vec<u16>, OpenMarket) {
    let mut market = opened.clone();
    let mut calls = Vec::new();
    for _ in 0..generator.below(MOST_CALLS + 1) {
        if generator.once_in(20) {
            calls.extend(no_call(generator, &market.ticket()));
            continue;
        }
        let (kind, call) = loop {
            // Refused calls are fewer here, so that lists without a refusal are met too.
            let drawn = any_call(generator, &market.ticket());
            if drawn.0.refusal().is_none() || generator.once_in(8) {
                break drawn;
            }
        };
        assert_eq!(market.call(call).err(), kind.refusal());
        calls.extend(with_other_ends(generator, call));
    }
    (calls, market)
}

/// What stands after hours is not looked at.
fn with_other_ends(generator: &mut Generator, call: Call) -> [u16; CALL_NUMBERS] {
    let mut numbers = call.numbers();
    if !matches!(call, Call::Pair { .. }) {
        numbers[3..].fill(generator.one_of(&[0, 1, 61, 501, 0xffff]));
    }
    numbers
}
