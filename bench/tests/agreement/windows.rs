use exchange_bench::draw::damage::{Damage, damaged_list, damaged_ticket_file};
use exchange_bench::draw::generator::Generator;
use exchange_bench::draw::tickets::any_ticket;
use exchange_bench::draw::windows::{ALL_WEEK, Fault, Window, any_windows, faulty_list, listed};
use exchange_bench::plain::Refusal;
use exchange_bench::plain::numbers::write_numbers;
use exchange_bench::plain::ticket::Ticket;
use exchange_bench::plain::windows::{WEEK, narrow};
use exchange_bench::proved;

use crate::buffers::{Room, same_answer};
use crate::old_caps::{assert_refused, kinds};
use crate::tally::Tally;

const INPUTS: usize = 60_000;

/// The most bytes of a ticket.
const TICKET_BYTES: usize = 2083;

/// A list of windows, and what must come of it with a good ticket and enough room, where that is known.
struct List {
    name: String,
    numbers: Vec<u16>,
    foreseen: Option<Result<(), Refusal>>,
}

fn any_list(generator: &mut Generator, parties: usize) -> List {
    let (name, numbers, foreseen) = match generator.below(4) {
        0 | 1 => {
            let windows = any_windows(generator, parties);
            ("good", listed(&windows), Some(Ok(())))
        }
        2 => {
            let (fault, numbers) = faulty_list(generator, parties);
            (fault.name(), numbers, Some(Err(fault.refusal())))
        }
        _ => {
            let good = listed(&any_windows(generator, parties));
            let (damage, numbers) = damaged_list(generator, &good);
            (damage.name(), numbers, None)
        }
    };
    List {
        name: list_name(name),
        numbers,
        foreseen,
    }
}

fn list_name(name: &str) -> String {
    format!("list: {name}")
}

/// The same answer and the same buffer, of a length around that of the new ticket.
fn same_windows(
    generator: &mut Generator,
    room: Room,
    file: &[u8],
    list: &[u16],
) -> Result<usize, u8> {
    let new_length = narrow(file, list, &mut [0; TICKET_BYTES]);
    let length = room.length(generator, new_length.unwrap_or(file.len().max(1)));
    same_answer(
        length,
        |new_ticket| proved::windows(file, list, new_ticket),
        |new_ticket| narrow(file, list, new_ticket),
    )
}

#[test]
fn windows_agree() {
    let mut generator = Generator::new(24);
    let mut tally = Tally::default();
    for _ in 0..INPUTS {
        let ticket = any_ticket(&mut generator);
        let list = any_list(&mut generator, ticket.growers() + ticket.pilots());
        let (damage, file) = if generator.once_in(4) {
            damaged_ticket_file(&mut generator, &ticket)
        } else {
            (Damage::None, ticket.bytes())
        };
        let room = generator.one_of(&Room::ALL);
        let answer = same_windows(&mut generator, room, &file, &list.numbers);
        assert_in_order(damage, &file, &list, room, answer);
        tally.compared(&list.name);
        tally.kind(format!("ticket: {}", damage.name()));
        tally.kind(room.name());
        tally.answered(answer);
    }
    tally.report("windows");
    tally.expect_refusals((1..=10).chain([18, 21, 22]));
    tally.expect_kinds(kinds("ticket: "));
    tally.expect_kinds(Fault::ALL.map(|fault| list_name(fault.name())));
}

/// The ticket's refusals come first, then those of the windows, and that of the buffer last.
fn assert_in_order(
    damage: Damage,
    file: &[u8],
    list: &List,
    room: Room,
    answer: Result<usize, u8>,
) {
    if let Err(refusal) = Ticket::read(file) {
        assert_eq!(answer, Err(refusal as u8));
        assert_refused(damage, answer.err());
    } else if damage == Damage::None {
        match (list.foreseen, room) {
            (None, _) => {}
            (Some(Err(refusal)), _) => assert_eq!(answer, Err(refusal as u8)),
            (Some(Ok(())), Room::Short) => assert_eq!(answer, Err(Refusal::NoRoom as u8)),
            (Some(Ok(())), _) => assert!(answer.is_ok()),
        }
    }
}

/// A ticket of one pair with both deals, and a list for it with windows of every kind: eight, some of which touch, to the end of
/// the week; and two.
const ONE_PAIR: [u8; 10] = [1, 1, 1, 60, 60, 60, 4, 3, 60, 10];
const ITS_LIST: [u16; 22] = [
    8, 0, 1, 1, 20, 24, 63, 64, 65, 100, 128, 129, 130, 150, 160, 167, 168, 2, 10, 90, 110, 168,
];

/// Each number of a list replaced by every hour, by some beyond, and by those whose low byte is an hour.
#[test]
fn one_number_replaced_agrees() {
    let mut generator = Generator::new(25);
    let mut tally = Tally::default();
    let beyond = [0xff, 0x100, 0x101, 0x8000, 0x8001, 0xfffe, 0xffff];
    for place in 0..ITS_LIST.len() {
        for number in (0..=WEEK + 2).chain(beyond) {
            let mut list = ITS_LIST;
            list[place] = number;
            let room = generator.one_of(&[Room::Exact, Room::Longer]);
            let answer = same_windows(&mut generator, room, &ONE_PAIR, &list);
            tally.compared("one number replaced");
            tally.answered(answer);
        }
    }
    for length in 0..ITS_LIST.len() {
        let list = &ITS_LIST[..length];
        let answer = same_windows(&mut generator, Room::Exact, &ONE_PAIR, list);
        assert_eq!(answer, Err(Refusal::WindowsMiscounted as u8));
        tally.compared("cut at every place");
        tally.answered(answer);
    }
    tally.report("one list of windows, changed");
    tally.expect_refusals([21, 22]);
}

/// Every window of one party, good or not, where the other has the whole week: its hours are the common ones.
#[test]
fn every_window_is_as_long_as_it_says() {
    let mut tally = Tally::default();
    for first in 0..=WEEK + 1 {
        for closing in 0..=WEEK + 1 {
            let window = Window { first, closing };
            for windows in [[window, ALL_WEEK], [ALL_WEEK, window]] {
                let list = listed(&windows.map(|window| vec![window]));
                let mut bytes = [0; ONE_PAIR.len()];
                let answer = proved::windows(&ONE_PAIR, &list, &mut bytes);
                if first < closing && closing <= WEEK {
                    let hours = closing - first;
                    assert_eq!(answer, Ok(ONE_PAIR.len()));
                    assert_eq!([bytes[5], bytes[8]].map(u16::from), both_caps(hours));
                } else {
                    assert_eq!(answer, Err(Refusal::IllWindow as u8));
                }
                tally.compared("one window");
                tally.answered(answer);
            }
        }
    }
    tally.report("every window");
}

/// What becomes of two caps of 60 hours: the tariff's takes the first 60 common hours, the free one the next.
fn both_caps(common: u16) -> [u16; 2] {
    match common {
        0..=60 => [common, 0],
        61..=120 => [60, common - 60],
        _ => [60, 60],
    }
}

/// By hand: the two caps and three amounts of a pair, the windows of its grower and its pilot, and what becomes of the five.
type Example = (
    [u16; 5],
    &'static [(u16, u16)],
    &'static [(u16, u16)],
    [u16; 5],
);

const EXAMPLES: [Example; 12] = [
    // six common hours, 10 to 15: both caps stay, the free one falls, to what the tariff leaves, to 0
    ([2, 4, 3, 4, 10], &[(8, 16)], &[(10, 20)], [2, 4, 3, 4, 10]),
    ([2, 4, 3, 9, 10], &[(8, 16)], &[(10, 20)], [2, 4, 3, 4, 10]),
    ([5, 4, 3, 9, 10], &[(8, 16)], &[(10, 20)], [5, 4, 3, 1, 10]),
    ([6, 4, 3, 9, 10], &[(8, 16)], &[(10, 20)], [6, 4, 3, 0, 0]),
    // the tariff falls and leaves nothing
    ([7, 4, 3, 9, 10], &[(8, 16)], &[(10, 20)], [6, 4, 3, 0, 0]),
    // no tariff deal: all common hours are left to the free one
    ([0, 0, 0, 9, 10], &[(8, 16)], &[(10, 20)], [0, 0, 0, 6, 10]),
    // the closing hour is outside: windows that touch one another have no hour in common
    ([2, 4, 3, 4, 10], &[(8, 16)], &[(16, 24)], [0, 0, 0, 0, 0]),
    ([2, 4, 3, 4, 10], &[(8, 17)], &[(16, 24)], [1, 4, 3, 0, 0]),
    // no window at all
    ([2, 4, 3, 4, 10], &[], &[(0, 168)], [0, 0, 0, 0, 0]),
    ([2, 4, 3, 4, 10], &[(0, 168)], &[], [0, 0, 0, 0, 0]),
    // windows that touch, and the last hour of the week
    (
        [2, 4, 3, 4, 10],
        &[(0, 1), (1, 2), (167, 168)],
        &[(1, 3), (160, 168)],
        [2, 4, 3, 0, 0],
    ),
    // amounts of two bytes go with their cap
    (
        [1, 500, 128, 1, 300],
        &[(5, 6)],
        &[(5, 6)],
        [1, 500, 128, 0, 0],
    ),
];

#[test]
fn examples_by_hand() {
    for (before, of_grower, of_pilot, after) in EXAMPLES {
        let windows = [of_grower, of_pilot].map(|ends| ends.iter().map(window).collect());
        let (file, list) = (one_pair(before), listed(&windows));
        let expected = one_pair(after);
        let mut by_proved = vec![0; expected.len()];
        let mut by_plain = by_proved.clone();
        let answer = proved::windows(&file, &list, &mut by_proved);
        assert_eq!(answer, Ok(expected.len()));
        assert_eq!(narrow(&file, &list, &mut by_plain), Ok(expected.len()));
        assert_eq!(by_proved, expected, "{before:?} {of_grower:?} {of_pilot:?}");
        assert_eq!(by_plain, expected, "{before:?} {of_grower:?} {of_pilot:?}");
    }
}

fn window(&(first, closing): &(u16, u16)) -> Window {
    Window { first, closing }
}

/// The file of a ticket of one pair with these numbers, both of whom have nine hours.
fn one_pair(terms: [u16; 5]) -> Vec<u8> {
    let numbers: Vec<u16> = [1, 1, 1, 9, 9].into_iter().chain(terms).collect();
    write_numbers(&numbers)
}
