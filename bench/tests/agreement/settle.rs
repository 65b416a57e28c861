use exchange_bench::draw::damage::damaged_ticket_file;
use exchange_bench::draw::generator::Generator;
use exchange_bench::draw::shapes::shapes;
use exchange_bench::draw::tickets::{STYLES, any_ticket, ticket};
use exchange_bench::plain::mark::{Finding, judge};
use exchange_bench::plain::method::{Rises, settle_ticket};
use exchange_bench::plain::settle::{settle, settled};
use exchange_bench::plain::settlement::Settlement;
use exchange_bench::plain::ticket::Ticket;
use exchange_bench::proved;

use crate::buffers::{Room, same_answer};
use crate::old_caps::{assert_refused, kinds};
use crate::tally::Tally;

const INPUTS: usize = 20_000;

fn room_needed(ticket: &Ticket) -> usize {
    3 + 4 * ticket.pairs()
}

/// Every spare tried, the settlement is sound.
pub fn assert_sound(ticket: &Ticket, settlement: &Settlement) {
    let verdict = judge(ticket, settlement);
    assert_eq!(verdict.finding, Finding::Sound, "{ticket:?} {settlement:?}");
    assert_eq!(verdict.count, 2 * ticket.pairs());
}

/// The proved settlement of a ticket, which the plain one equals.
fn settled_alike(ticket: &Ticket) -> Settlement {
    let mut bytes = vec![0; room_needed(ticket)];
    let length = proved::settle(&ticket.bytes(), &mut bytes).expect("the ticket is good");
    let settlement = Settlement::read(&bytes[..length], ticket).expect("it is a settlement");
    assert_eq!(settlement, settled(ticket));
    settlement
}

#[test]
fn settle_agrees() {
    let mut generator = Generator::new(3);
    let mut tally = Tally::default();
    for _ in 0..INPUTS {
        let ticket = any_ticket(&mut generator);
        let (damage, bytes) = damaged_ticket_file(&mut generator, &ticket);
        let room = generator.one_of(&Room::ALL);
        let length = room.length(&mut generator, room_needed(&ticket));
        let answer = same_answer(
            length,
            |settlement| proved::settle(&bytes, settlement),
            |settlement| settle(&bytes, settlement),
        );
        assert_refused(damage, answer.err());
        tally.compared(damage.name());
        tally.kind(room.name());
        tally.answered(answer);
    }
    tally.report("settle");
    tally.expect_refusals((1..=10).chain([18]));
    tally.expect_kinds(kinds(""));
}

#[test]
fn settlements_are_sound() {
    let mut generator = Generator::new(4);
    let mut tally = Tally::default();
    for growers in 1..=16 {
        for pilots in 1..=16 {
            for style in STYLES {
                let ticket = ticket(&mut generator, growers, pilots, style);
                assert_sound(&ticket, &settled_alike(&ticket));
                tally.compared(format!("every size, {style:?}"));
                tally.verdict(Finding::Sound as u8);
            }
        }
    }
    for _ in 0..INPUTS {
        let ticket = any_ticket(&mut generator);
        assert_sound(&ticket, &settled_alike(&ticket));
        tally.compared("any size and style");
        tally.verdict(Finding::Sound as u8);
    }
    tally.report("settlements, every spare of each deal tried");
}

#[test]
fn the_tickets_of_the_benchmark_are_settled_alike() {
    let mut tally = Tally::default();
    for shape in shapes() {
        for ticket in &shape.tickets {
            assert_sound(ticket, &settled_alike(ticket));
            tally.compared(shape.name);
        }
    }
    tally.report("tickets of the benchmark, settled and sound");
}

/// The method of turns settles where a guess is refused. Jumps are for speed only.
#[test]
fn settlements_by_turns_are_sound() {
    let mut generator = Generator::new(5);
    let mut tally = Tally::default();
    for _ in 0..2_000 {
        let ticket = any_ticket(&mut generator);
        for rises in [Rises::Jumps, Rises::ByOne] {
            let (settlement, turns) = settle_ticket(&ticket, rises);
            assert_sound(&ticket, &settlement);
            assert!(rises == Rises::Jumps || turns.jumps == 0);
            tally.compared(format!("plain settlements by turns, {rises:?}"));
        }
    }
    tally.report("settlements by turns, plain only");
}
