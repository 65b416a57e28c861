use exchange_bench::draw::damage::{damaged_file, damaged_list};
use exchange_bench::draw::generator::Generator;
use exchange_bench::draw::settlements::any_settlement;
use exchange_bench::draw::tickets::any_ticket;
use exchange_bench::plain::settlement::{read_settlement, write_settlement};
use exchange_bench::proved;

use crate::buffers::{Room, same_answer};
use crate::mark::sound_settlement;
use crate::tally::Tally;

const INPUTS: usize = 30_000;

/// Growers or pilots: those of the settlement, or once in eight others, few or too many.
fn named(generator: &mut Generator, count: usize) -> usize {
    if generator.once_in(8) {
        generator.below(300)
    } else {
        count
    }
}

#[test]
fn settlements_are_read_and_written_alike() {
    let mut generator = Generator::new(31);
    let mut tally = Tally::default();
    for _ in 0..INPUTS {
        let ticket = any_ticket(&mut generator);
        let sound = sound_settlement(&ticket);
        let (making, settlement) = any_settlement(&mut generator, &ticket, &sound);
        let growers = named(&mut generator, settlement.growers);
        let pilots = named(&mut generator, settlement.pilots);
        let room = generator.one_of(&Room::ALL);
        let (damage, bytes) = damaged_file(&mut generator, &settlement.numbers());
        let length = room.length(&mut generator, settlement.numbers().len());
        tally.answered(same_answer(
            length,
            |list| proved::read_settlement(&bytes, growers, pilots, list),
            |list| read_settlement(&bytes, growers, pilots, list),
        ));
        tally.compared(format!("file {}, {}", damage.name(), making.name()));
        let (damage, list) = damaged_list(&mut generator, &settlement.numbers());
        let length = room.length(&mut generator, settlement.bytes().len());
        tally.answered(same_answer(
            length,
            |bytes| proved::write_settlement(&list, growers, pilots, bytes),
            |bytes| write_settlement(&list, growers, pilots, bytes),
        ));
        tally.compared(format!("list {}, {}", damage.name(), making.name()));
    }
    tally.report("settlements");
    tally.expect_refusals([10].into_iter().chain(11..=16));
}

/// Every refusal has words of its own, which need all their room; a number that is none has others.
#[test]
fn refusals_have_words() {
    let mut texts = Vec::new();
    for number in 1..=22 {
        let mut text = [0; 96];
        let length = proved::refusal_text(number, &mut text).expect("96 bytes suffice");
        assert_eq!(
            proved::refusal_text(number, &mut text[..length - 1]),
            Err(10)
        );
        texts.push(text[..length].to_vec());
    }
    let mut none = [0; 96];
    let length = proved::refusal_text(0, &mut none).expect("96 bytes suffice");
    for number in [23, 255, 256, 65_536, u32::MAX] {
        let mut text = [0; 96];
        assert_eq!(proved::refusal_text(number, &mut text), Ok(length));
        assert_eq!(text, none);
    }
    texts.push(none[..length].to_vec());
    let all = texts.len();
    texts.sort();
    texts.dedup();
    assert_eq!(texts.len(), all);
}
