use exchange_bench::draw::damage::damaged_ticket_file;
use exchange_bench::draw::generator::Generator;
use exchange_bench::draw::tickets::any_ticket;
use exchange_bench::plain::sheet::{room_needed, sheet};
use exchange_bench::plain::ticket::{Terms, Ticket};
use exchange_bench::proved;

use crate::buffers::{Room, same_answer};
use crate::old_caps::{assert_refused, kinds};
use crate::tally::Tally;

const INPUTS: usize = 20_000;

#[test]
fn sheet_agrees() {
    let mut generator = Generator::new(7);
    let mut tally = Tally::default();
    for _ in 0..INPUTS {
        let ticket = any_ticket(&mut generator);
        let (damage, bytes) = damaged_ticket_file(&mut generator, &ticket);
        let room = generator.one_of(&Room::ALL);
        let length = room.length(&mut generator, room_needed(&bytes));
        let answer = same_answer(
            length,
            |text| proved::sheet(&bytes, text),
            |text| sheet(&bytes, text),
        );
        tally.compared(damage.name());
        tally.kind(room.name());
        let refusal = Ticket::read(&bytes).err().map(|refusal| refusal as u8);
        assert_refused(damage, refusal);
        match refusal {
            None => tally.kind("text of a settled ticket"),
            Some(number) => tally.kind(format!("text REFUSED {number}")),
        }
        tally.answered(answer);
    }
    tally.report("sheet");
    tally.expect_refusals([10]);
    let refusals = (1..=9).chain([18]);
    tally.expect_kinds(refusals.map(|number| format!("text REFUSED {number}")));
    tally.expect_kinds(kinds(""));
}

/// Every amount wherever a line has one.
#[test]
fn every_amount_is_printed() {
    for amount in 0..=500 {
        let other = 500 - amount;
        assert_eq!(
            proved_sheet(&by_tariff(amount, other)),
            format!("SHEET 1 1\n0 0 1 {amount} {other} 0 0 0\nSOUND 2\n"),
        );
        let sheet = proved_sheet(&by_free_deals(amount, other));
        assert!(
            sheets_by_free_deals(amount, other).contains(&sheet),
            "{sheet}"
        );
    }
}

fn proved_sheet(ticket: &Ticket) -> String {
    let bytes = ticket.bytes();
    let mut text = vec![0; room_needed(&bytes)];
    let length = proved::sheet(&bytes, &mut text).expect("the ticket is good");
    text.truncate(length);
    String::from_utf8(text).expect("a sheet is text")
}

/// A ticket with one tariff deal, whose hour is flown.
fn by_tariff(gain: u16, pay: u16) -> Ticket {
    Ticket {
        grower_hours: vec![1],
        pilot_hours: vec![1],
        terms: vec![Terms {
            tariff_cap: 1,
            tariff_gain: gain,
            tariff_pay: pay,
            ..Terms::default()
        }],
    }
}

/// A ticket that is settled in one of two ways. The first pair flies its hour for just these shares: the other grower offers
/// the pilot no less than his, the other pilot leaves the grower no less than hers. Or these two fly with those others, who
/// get nothing of it.
fn by_free_deals(share: u16, pay: u16) -> Ticket {
    Ticket {
        grower_hours: vec![1, 1],
        pilot_hours: vec![1, 1],
        terms: vec![
            free_deal(share + pay),
            free_deal(share),
            free_deal(pay),
            Terms::default(),
        ],
    }
}

/// The sheets of the two.
fn sheets_by_free_deals(share: u16, pay: u16) -> [String; 2] {
    [
        format!("SHEET 2 2\n0 0 0 0 0 1 {share} {pay}\nSOUND 8\n"),
        format!("SHEET 2 2\n0 1 0 0 0 1 {share} 0\n1 0 0 0 0 1 0 {pay}\nSOUND 8\n"),
    ]
}

fn free_deal(joint_gain: u16) -> Terms {
    Terms {
        free_cap: 1,
        joint_gain,
        ..Terms::default()
    }
}
