use exchange_bench::draw::damage::{Damage, damaged_file, damaged_ticket_file};
use exchange_bench::draw::generator::Generator;
use exchange_bench::draw::settlements::any_settlement;
use exchange_bench::draw::tickets::any_ticket;
use exchange_bench::plain::account::account_into;
use exchange_bench::proved;

use crate::mark::sound_settlement;
use crate::old_caps::{assert_refused, kinds};
use crate::tally::Tally;

const TICKETS: usize = 6_000;
const SETTLEMENTS_OF_EACH: usize = 3;
const MARK: u32 = 0xdead_beef;

/// The same answer, and the same list, of a length around that of the account. Answers with the refusal.
fn same_account(ticket: &[u8], settlement: &[u8], places: usize, tally: &mut Tally) -> Option<u8> {
    let mut list = vec![MARK; places];
    let mut plain = vec![MARK; places];
    let answer = proved::account(ticket, settlement, &mut list);
    let expected = account_into(ticket, settlement, &mut plain).map_err(|refusal| refusal as u8);
    assert_eq!(answer, expected);
    assert_eq!(list, plain);
    tally.answered(answer);
    answer.err()
}

#[test]
fn account_agrees() {
    let mut generator = Generator::new(9);
    let mut tally = Tally::default();
    for _ in 0..TICKETS {
        let ticket = any_ticket(&mut generator);
        let bytes = ticket.bytes();
        let sound = sound_settlement(&ticket);
        let whole = ticket.growers() + 2 * ticket.pilots();
        for places in [whole - 1, whole, whole + 1] {
            same_account(&bytes, &sound.bytes(), places, &mut tally);
            tally.compared("sound settlement");
        }
        for _ in 0..SETTLEMENTS_OF_EACH {
            let (making, settlement) = any_settlement(&mut generator, &ticket, &sound);
            same_account(&bytes, &settlement.bytes(), whole, &mut tally);
            tally.compared(format!("settlement {}", making.name()));
        }
        let (damage, file) = damaged_file(&mut generator, &sound.numbers());
        same_account(&bytes, &file, 48, &mut tally);
        tally.compared(format!("settlement's file {}", damage.name()));
        let (damage, file) = damaged_ticket_file(&mut generator, &ticket);
        if damage != Damage::None {
            let refusal = same_account(&file, &sound.bytes(), 48, &mut tally);
            assert_refused(damage, refusal);
            tally.compared(format!("ticket's file {}", damage.name()));
        }
    }
    tally.report("account");
    tally.expect_refusals(1..=18);
    tally.expect_kinds(kinds("ticket's file "));
}
