use exchange_bench::draw::damage::damaged_ticket_file;
use exchange_bench::draw::generator::Generator;
use exchange_bench::draw::tickets::any_ticket;
use exchange_bench::plain::ticket::unpack;
use exchange_bench::proved;

use crate::buffers::{Room, same_answer};
use crate::old_caps::{assert_refused, kinds};
use crate::tally::Tally;

const INPUTS: usize = 120_000;

#[test]
fn unpack_agrees() {
    let mut generator = Generator::new(1);
    let mut tally = Tally::default();
    for _ in 0..INPUTS {
        let ticket = any_ticket(&mut generator);
        let (damage, bytes) = damaged_ticket_file(&mut generator, &ticket);
        let room = generator.one_of(&Room::ALL);
        let length = room.length(&mut generator, ticket.numbers().len());
        let answer = same_answer(
            length,
            |list| proved::unpack(&bytes, list),
            |list| unpack(&bytes, list),
        );
        assert_refused(damage, answer.err());
        tally.compared(damage.name());
        tally.kind(room.name());
        tally.answered(answer);
    }
    tally.report("unpack");
    tally.expect_refusals((1..=10).chain([18]));
    tally.expect_kinds(kinds(""));
}
