//! Guesses pass their test, and what passes it is sound. The guess is the plain one; that the proved program makes the same
//! shows in its settlements.

use exchange_bench::draw::generator::Generator;
use exchange_bench::draw::settlements::{Making, any_settlement};
use exchange_bench::draw::shapes::{KINDS, shapes};
use exchange_bench::draw::tickets::{STYLES, any_ticket, any_ticket_of, ticket};
use exchange_bench::plain::certificate::certified;
use exchange_bench::plain::guess::guess;
use exchange_bench::plain::mark::{Finding, judge};
use exchange_bench::plain::squares::{SettlementSquares, TicketSquares};
use exchange_bench::plain::ticket::{CENTS, Ticket};

use crate::settle::assert_sound;
use crate::tally::Tally;

const TICKETS_OF_EACH_STYLE: usize = 30_000;
const TICKETS_OF_EACH_KIND: usize = 1_000;
const DAMAGED: usize = 60_000;

/// Every spare is tried of one certified guess in so many.
const JUDGED: usize = 16;

const REFUSED: &str = "refused, in euros or cents";

/// Has the guess of a ticket tested, in euros and in cents.
fn test_guess(name: &str, ticket: &Ticket, generator: &mut Generator, tally: &mut Tally) {
    tally.compared(name);
    for ticket in [ticket, &ticket.with_amounts_times(CENTS)] {
        let squares = TicketSquares::of(ticket);
        let guessed = guess(&squares);
        let passed = certified(&squares, &guessed);
        tally.kind_if(!passed, REFUSED);
        if passed && generator.once_in(JUDGED) {
            assert_sound(
                ticket,
                &guessed.settlement(ticket.growers(), ticket.pilots()),
            );
            tally.kind("certified, every spare tried, and sound");
        }
    }
}

#[test]
fn every_guess_is_certified() {
    let mut generator = Generator::new(12);
    let mut tally = Tally::default();
    for style in STYLES {
        let name = format!("{style:?}");
        for side in 1..=16 {
            for other in 1..=16 {
                let ticket = ticket(&mut generator, side, other, style);
                test_guess(&name, &ticket, &mut generator, &mut tally);
            }
        }
        for _ in 0..TICKETS_OF_EACH_STYLE {
            let ticket = any_ticket_of(&mut generator, style);
            test_guess(&name, &ticket, &mut generator, &mut tally);
        }
    }
    for kind in KINDS {
        for _ in 0..TICKETS_OF_EACH_KIND {
            let ticket = (kind.draw)(&mut generator);
            test_guess(kind.name, &ticket, &mut generator, &mut tally);
        }
    }
    for shape in shapes() {
        for ticket in &shape.tickets {
            test_guess(shape.name, ticket, &mut generator, &mut tally);
        }
    }
    tally.report("guesses tested");
    tally.expect_at_most(0, REFUSED);
}

/// What a certificate says of a settlement, and what every spare does.
fn test_settlement(
    ticket: &Ticket,
    making: Making,
    settlement: &SettlementSquares,
    tally: &mut Tally,
) {
    let (growers, pilots) = (ticket.growers(), ticket.pilots());
    let finding = judge(ticket, &settlement.settlement(growers, pilots)).finding;
    let passed = certified(&TicketSquares::of(ticket), settlement);
    tally.compared(making.name());
    tally.verdict(finding as u8);
    match (passed, finding) {
        (true, Finding::Sound) => tally.kind(CERTIFIED),
        (true, _) => panic!("certified and not sound: {ticket:?} {settlement:?}"),
        (false, Finding::Sound) => tally.kind(SOUND_REFUSED),
        (false, _) => tally.kind(UNSOUND_REFUSED),
    }
}

const CERTIFIED: &str = "sound and certified";
const SOUND_REFUSED: &str = "sound and refused";
const UNSOUND_REFUSED: &str = "not sound and refused";

/// The certificate is enough for soundness, and not needed for it.
#[test]
fn damaged_guesses_that_are_not_sound_are_refused() {
    let mut generator = Generator::new(13);
    let mut tally = Tally::default();
    for _ in 0..DAMAGED {
        let ticket = any_ticket(&mut generator);
        let guess =
            guess(&TicketSquares::of(&ticket)).settlement(ticket.growers(), ticket.pilots());
        let (making, damaged) = any_settlement(&mut generator, &ticket, &guess);
        if making != Making::OtherSize {
            test_settlement(
                &ticket,
                making,
                &SettlementSquares::of(&damaged),
                &mut tally,
            );
        }
    }
    tally.report("damaged guesses tested");
    tally.expect_verdicts(1..=8);
    tally.expect_at_least(DAMAGED as u64 / 10, CERTIFIED);
    tally.expect_at_least(1, SOUND_REFUSED);
    tally.expect_at_least(DAMAGED as u64 / 4, UNSOUND_REFUSED);
}
