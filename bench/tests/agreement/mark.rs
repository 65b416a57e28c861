use exchange_bench::draw::damage::{Damage, damaged_file, damaged_ticket_file};
use exchange_bench::draw::generator::Generator;
use exchange_bench::draw::settlements::any_settlement;
use exchange_bench::draw::tickets::any_ticket;
use exchange_bench::plain::mark::mark;
use exchange_bench::plain::settlement::Settlement;
use exchange_bench::plain::ticket::Ticket;
use exchange_bench::plain::{Refusal, mark::Verdict, quick};
use exchange_bench::proved::{self, Answer};

use crate::old_caps::{assert_refused, kinds};
use crate::tally::Tally;

const TICKETS: usize = 12_000;
const SETTLEMENTS_OF_EACH: usize = 10;

const WORTH_SOMETHING: &str = "worth above 0";

/// A plain answer, as the C interface gives it.
pub fn as_proved(answer: Result<Verdict, Refusal>) -> Answer<proved::Verdict> {
    match answer {
        Err(refusal) => Err(refusal as u8),
        Ok(verdict) => Ok(proved::Verdict {
            number: verdict.finding as u8,
            grower: verdict.grower,
            pilot: verdict.pilot,
            deal: verdict.deal,
            count: verdict.count,
        }),
    }
}

/// The worth of a plain answer, in the same way.
pub fn worth_of(answer: Result<Verdict, Refusal>) -> Answer<u64> {
    match answer {
        Err(refusal) => Err(refusal as u8),
        Ok(verdict) => Ok(verdict.worth),
    }
}

/// The proved marker, the one that tries every spare, and the quick one agree, on the worth too. Answers with their refusal.
fn same_mark(ticket: &[u8], settlement: &[u8], tally: &mut Tally) -> Option<u8> {
    let answer = proved::mark(ticket, settlement);
    let worth = proved::worth(ticket, settlement);
    for plain in [mark(ticket, settlement), quick::mark(ticket, settlement)] {
        assert_eq!(answer, as_proved(plain));
        assert_eq!(worth, worth_of(plain));
    }
    tally.answered(answer);
    if matches!(worth, Ok(1..)) {
        tally.kind(WORTH_SOMETHING);
    }
    if let Ok(verdict) = answer {
        tally.verdict(verdict.number);
    }
    answer.err()
}

pub fn sound_settlement(ticket: &Ticket) -> Settlement {
    let mut bytes = vec![0; 3 + 4 * ticket.pairs()];
    let length = proved::settle(&ticket.bytes(), &mut bytes).expect("the ticket is good");
    Settlement::read(&bytes[..length], ticket).expect("it is a settlement")
}

#[test]
fn mark_agrees() {
    let mut generator = Generator::new(6);
    let mut tally = Tally::default();
    for _ in 0..TICKETS {
        let ticket = any_ticket(&mut generator);
        let bytes = ticket.bytes();
        let sound = sound_settlement(&ticket);
        for _ in 0..SETTLEMENTS_OF_EACH {
            let (making, settlement) = any_settlement(&mut generator, &ticket, &sound);
            same_mark(&bytes, &settlement.bytes(), &mut tally);
            tally.compared(format!("settlement {}", making.name()));
        }
        let (damage, file) = damaged_file(&mut generator, &sound.numbers());
        same_mark(&bytes, &file, &mut tally);
        tally.compared(format!("settlement's file {}", damage.name()));
        let (damage, file) = damaged_ticket_file(&mut generator, &ticket);
        if damage != Damage::None {
            assert_refused(damage, same_mark(&file, &sound.bytes(), &mut tally));
            tally.compared(format!("ticket's file {}", damage.name()));
        }
    }
    tally.report("mark");
    tally.expect_refusals((1..=9).chain(11..=16).chain([18]));
    tally.expect_kinds(kinds("ticket's file "));
    tally.expect_at_least(5_000, WORTH_SOMETHING);
    tally.expect_verdicts(1..=8);
}
