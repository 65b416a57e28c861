use exchange_bench::draw::damage::damaged_ticket_list;
use exchange_bench::draw::generator::Generator;
use exchange_bench::draw::tickets::any_ticket;
use exchange_bench::plain::ticket::pack;
use exchange_bench::proved;

use crate::buffers::{Room, same_answer};
use crate::old_caps::{assert_refused, kinds};
use crate::tally::Tally;

const INPUTS: usize = 80_000;

#[test]
fn pack_agrees() {
    let mut generator = Generator::new(2);
    let mut tally = Tally::default();
    for _ in 0..INPUTS {
        let ticket = any_ticket(&mut generator);
        let (damage, list) = damaged_ticket_list(&mut generator, &ticket);
        let room = generator.one_of(&Room::ALL);
        let length = room.length(&mut generator, ticket.bytes().len());
        let answer = same_answer(
            length,
            |bytes| proved::pack(&list, bytes),
            |bytes| pack(&list, bytes),
        );
        assert_refused(damage, answer.err());
        tally.compared(damage.name());
        tally.kind(room.name());
        tally.answered(answer);
    }
    tally.report("pack");
    tally.expect_refusals([1].into_iter().chain(4..=10).chain([18]));
    tally.expect_kinds(kinds(""));
}
