//! The free hours that an open market holds, by the words of the request: each figure equals the party's hours less those in the
//! settlement held.

use exchange_bench::draw::calls::any_call;
use exchange_bench::draw::generator::Generator;
use exchange_bench::draw::tickets::any_ticket;
use exchange_bench::plain::open_market::{Call, GROWER_FREE_HOURS, MARKET_NUMBERS, OpenMarket};
use exchange_bench::plain::settlement::Settlement;
use exchange_bench::plain::squares::SIDE;
use exchange_bench::plain::ticket::Ticket;
use exchange_bench::proved;

use crate::open_market::{MARKETS, MOST_CALLS, held_settlement};
use crate::tally::Tally;

/// After opening and after every call, accepted or refused.
#[test]
fn free_hours_are_sums() {
    let mut generator = Generator::new(23);
    let mut tally = Tally::default();
    for _ in 0..MARKETS {
        // No figure is like this, so that the zeros beyond the last party must be written too.
        let mut list = vec![0xa5a5; MARKET_NUMBERS];
        let opened = proved::open(&any_ticket(&mut generator).bytes(), &mut list);
        let mut ticket = compared(&list, &mut tally);
        tally.compared("opened");
        tally.answered(opened);
        for _ in 0..generator.below(MOST_CALLS + 1) {
            let (kind, call) = any_call(&mut generator, &ticket);
            let answer = proved::call(&mut list, &call.numbers());
            ticket = compared(&list, &mut tally);
            tally.compared(kind.name());
            tally.answered(answer);
        }
    }
    tally.report("free hours");
    tally.expect_refusals([19, 20]);
    for (_, name) in FIGURES {
        tally.expect_at_least(MARKETS as u64, name);
    }
    tally.expect_at_least(1, ALL_PARTIES);
}

/// Whether a party is met, by its hours and those that are free; and the name for it.
type Figure = (fn(u16, u16) -> bool, &'static str);

const FIGURES: [Figure; 3] = [
    (|hours, free| 0 < free && free == hours, "all hours free"),
    (|hours, free| 0 < free && free < hours, "some hours free"),
    (|hours, free| 0 == free && free < hours, "no hours free"),
];

const ALL_PARTIES: &str = "16 by 16";

/// Compares all figures of a market's list, and returns the ticket that it holds.
fn compared(list: &[u16], tally: &mut Tally) -> Ticket {
    let ticket = held_ticket(list);
    let settlement = held_settlement(list, &ticket);
    let held = &list[GROWER_FREE_HOURS..];
    assert_eq!(
        held,
        sums(&ticket, &settlement),
        "{ticket:?}, {settlement:?}"
    );
    let (growers, pilots) = held.split_at(SIDE);
    let parties =
        (ticket.grower_hours.iter().zip(growers)).chain(ticket.pilot_hours.iter().zip(pilots));
    for (is_met, name) in FIGURES {
        let met = parties.clone().any(|(&hours, &free)| is_met(hours, free));
        tally.kind_if(met, name);
    }
    tally.kind_if(ticket.pairs() == SIDE * SIDE, ALL_PARTIES);
    ticket
}

/// The growers' free hours in as many places as there may be growers, and the pilots'.
fn sums(ticket: &Ticket, settlement: &Settlement) -> [u16; 2 * SIDE] {
    let flown = |grower, pilot| {
        let agreement = settlement.agreement(grower, pilot);
        agreement.tariff_hours + agreement.free_deal_hours
    };
    let mut free = [0; 2 * SIDE];
    for (grower, hours) in ticket.grower_hours.iter().enumerate() {
        let all = (0..ticket.pilots()).map(|pilot| flown(grower, pilot));
        free[grower] = hours - all.sum::<u16>();
    }
    for (pilot, hours) in ticket.pilot_hours.iter().enumerate() {
        let all = (0..ticket.growers()).map(|grower| flown(grower, pilot));
        free[SIDE + pilot] = hours - all.sum::<u16>();
    }
    free
}

/// The ticket that the proved market holds, from its file.
fn held_ticket(list: &[u16]) -> Ticket {
    let (growers, pilots) = (usize::from(list[1]), usize::from(list[2]));
    let numbers = &list[..3 + growers + pilots + 5 * growers * pilots];
    let mut file = [0; 2083];
    let length = proved::pack(numbers, &mut file);
    Ticket::read(&file[..length.expect("it has room")]).expect("it is a ticket")
}

/// The example of `docs/FORMAT.md`, on both, at its places.
#[test]
fn an_hour_of_both_is_flown() {
    const FILE: [u8; 10] = [1, 1, 1, 3, 2, 1, 4, 3, 0, 0];
    const PILOT_OFF: Call = Call::PilotHours { pilot: 0, hours: 0 };
    let at_places = |list: &[u16]| [list[2086], list[2102]];
    let mut list = [0; 2118];
    let mut market = OpenMarket::open(&FILE).expect("the ticket is good");
    assert_eq!(proved::open(&FILE, &mut list), Ok(2118));
    assert_eq!(at_places(&list), [2, 1]);
    assert_eq!(at_places(&market.numbers()), [2, 1]);
    assert_eq!(proved::call(&mut list, &PILOT_OFF.numbers()), Ok(()));
    assert_eq!(market.call(PILOT_OFF), Ok(()));
    assert_eq!(at_places(&list), [3, 0]);
    assert_eq!(at_places(&market.numbers()), [3, 0]);
}
