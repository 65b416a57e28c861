//! The new tickets that windows make, by the words of the request: caps fall to the common hours, which are found here by the
//! overlaps of windows; all else is kept, and what comes of it can be settled.

use exchange_bench::draw::generator::Generator;
use exchange_bench::draw::tickets::any_ticket;
use exchange_bench::draw::windows::{ALL_WEEK, Window, Windows, any_windows, cut_in_two, listed};
use exchange_bench::plain::mark::Finding;
use exchange_bench::plain::ticket::{Terms, Ticket};
use exchange_bench::plain::windows::{MOST_WINDOWS, WEEK};
use exchange_bench::proved;

use crate::mark::sound_settlement;
use crate::tally::Tally;
use crate::worth::turned;

const TICKETS: usize = 20_000;

/// The file of the proved new ticket, which is never longer than the ticket's.
fn new_file(file: &[u8], windows: &[Vec<Window>]) -> Vec<u8> {
    let mut new_file = vec![0; file.len()];
    let length = proved::windows(file, &listed(windows), &mut new_file);
    new_file.truncate(length.expect("both are good, and there is room"));
    new_file
}

/// The new ticket, which passes a ticket's checks.
fn new_ticket(ticket: &Ticket, windows: &[Vec<Window>]) -> Ticket {
    Ticket::read(&new_file(&ticket.bytes(), windows)).expect("it is a ticket")
}

/// Every hour that lies in a window of both lies in one overlap of two windows.
fn common_hours(of_grower: &[Window], of_pilot: &[Window]) -> u16 {
    let overlap = |one: &Window, other: &Window| {
        let closing = one.closing.min(other.closing);
        closing.saturating_sub(one.first.max(other.first))
    };
    of_grower
        .iter()
        .flat_map(|one| of_pilot.iter().map(move |other| overlap(one, other)))
        .sum()
}

/// What may become of a cap, and the name for it.
type Change = (fn(u16, u16) -> bool, &'static str);

const CHANGES: [Change; 3] = [
    (|old, new| 0 < new && new == old, "stays"),
    (|old, new| 0 < new && new < old, "falls"),
    (|old, new| 0 == new && new < old, "falls to 0"),
];

const USED_UP: &str = "a tariff cap takes all common hours, and the free cap falls to 0";

/// What the request says of a pair's new terms, which leaves no other.
fn assert_fallen(old: &Terms, new: &Terms, common: u16) {
    assert_deal(
        [old.tariff_cap, new.tariff_cap],
        [old.tariff_gain, old.tariff_pay],
        [new.tariff_gain, new.tariff_pay],
    );
    assert_deal(
        [old.free_cap, new.free_cap],
        [old.joint_gain],
        [new.joint_gain],
    );
    // A cap falls no further than it must, the free one first.
    assert!(new.tariff_cap + new.free_cap <= common);
    assert!(new.tariff_cap == old.tariff_cap || new.tariff_cap == common);
    assert!(new.free_cap == old.free_cap || new.tariff_cap + new.free_cap == common);
}

/// A cap never grows. Its amounts are kept if it is above 0, and else cleared.
fn assert_deal<const N: usize>([old_cap, new_cap]: [u16; 2], old: [u16; N], new: [u16; N]) {
    assert!(new_cap <= old_cap);
    assert_eq!(new, if new_cap > 0 { old } else { [0; N] });
}

/// Caps fall as the request says, hours stay, the settlement of the new ticket is sound, and the same windows leave the new ticket
/// as it is.
#[test]
fn caps_fall_to_common_hours() {
    let mut generator = Generator::new(26);
    let mut tally = Tally::default();
    for _ in 0..TICKETS {
        let ticket = any_ticket(&mut generator);
        let windows = any_windows(&mut generator, ticket.growers() + ticket.pilots());
        let new = new_ticket(&ticket, &windows);
        assert_eq!(new.grower_hours, ticket.grower_hours);
        assert_eq!(new.pilot_hours, ticket.pilot_hours);
        assert_eq!(new.pairs(), ticket.pairs());
        tally_windows(&windows, &mut tally);
        let (of_growers, of_pilots) = windows.split_at(ticket.growers());
        for (grower, of_grower) in of_growers.iter().enumerate() {
            for (pilot, of_pilot) in of_pilots.iter().enumerate() {
                let (old, new) = (ticket.terms(grower, pilot), new.terms(grower, pilot));
                assert_fallen(old, new, common_hours(of_grower, of_pilot));
                tally_terms(old, new, &mut tally);
            }
        }
        assert_marked_sound(&new);
        assert_eq!(new_ticket(&new, &windows), new);
        tally.compared("new ticket");
    }
    tally.report("new tickets of windows");
    for (_, change) in CHANGES {
        for deal in ["tariff", "free"] {
            tally.expect_at_least(TICKETS as u64 / 2, &change_of(deal, change));
        }
    }
    tally.expect_at_least(TICKETS as u64 / 2, USED_UP);
    for (_, name) in SHAPES {
        tally.expect_at_least(TICKETS as u64 / 4, name);
    }
}

fn change_of(deal: &str, change: &str) -> String {
    format!("a {deal} cap {change}")
}

fn tally_terms(old: &Terms, new: &Terms, tally: &mut Tally) {
    for (is_met, change) in CHANGES {
        tally.kind_if(
            is_met(old.tariff_cap, new.tariff_cap),
            change_of("tariff", change),
        );
        tally.kind_if(
            is_met(old.free_cap, new.free_cap),
            change_of("free", change),
        );
    }
    tally.kind_if(
        new.tariff_cap > 0 && new.free_cap == 0 && old.free_cap > 0,
        USED_UP,
    );
}

/// What a party's windows may be like, and the name for it.
type Shape = (fn(&[Window]) -> bool, &'static str);

const SHAPES: [Shape; 6] = [
    (|party| party.is_empty(), "a party without windows"),
    (|party| party.len() == 1, "a party with one window"),
    (
        |party| party.len() == MOST_WINDOWS,
        "a party with eight windows",
    ),
    (|party| party == [ALL_WEEK], "a party with the whole week"),
    (
        |party| party.windows(2).any(|two| two[0].closing == two[1].first),
        "windows that touch",
    ),
    (
        |party| party.last().is_some_and(|last| last.closing == WEEK),
        "a window to the end of the week",
    ),
];

fn tally_windows(windows: &Windows, tally: &mut Tally) {
    for (is_met, name) in SHAPES {
        tally.kind_if(windows.iter().any(|party| is_met(party)), name);
    }
}

/// The proved settlement of a ticket, marked by the proved marker.
fn assert_marked_sound(ticket: &Ticket) {
    let settlement = sound_settlement(ticket);
    let verdict = proved::mark(&ticket.bytes(), &settlement.bytes()).expect("both are good");
    assert_eq!(verdict.number, Finding::Sound as u8);
    assert_eq!(verdict.count, 2 * ticket.pairs());
}

/// Everybody has the whole week, in one window or in parts: the new ticket is the old one, byte for byte.
#[test]
fn the_whole_week_changes_nothing() {
    let mut generator = Generator::new(27);
    let mut tally = Tally::default();
    for _ in 0..TICKETS / 4 {
        let ticket = any_ticket(&mut generator);
        let file = ticket.bytes();
        let mut windows = vec![vec![ALL_WEEK]; ticket.growers() + ticket.pilots()];
        for name in ["in one window", "in two", "in four", "in eight"] {
            assert_eq!(new_file(&file, &windows), file);
            tally.compared(format!("the whole week {name}"));
            for party in &mut windows {
                *party = cut_in_two(&mut generator, party);
            }
        }
    }
    tally.report("the whole week");
}

/// Cut in more windows, the same hours make the same new ticket. With growers as pilots and pilots as growers, it is turned too.
#[test]
fn the_same_hours_make_the_same_ticket() {
    let mut generator = Generator::new(28);
    let mut tally = Tally::default();
    for _ in 0..TICKETS {
        let ticket = any_ticket(&mut generator);
        let windows = any_windows(&mut generator, ticket.growers() + ticket.pilots());
        let new = new_ticket(&ticket, &windows);
        let in_parts: Windows = windows
            .iter()
            .map(|party| cut_in_two(&mut generator, party))
            .collect();
        assert_eq!(new_ticket(&ticket, &in_parts), new);
        tally.compared("cut in more windows");
        tally.kind_if(in_parts != windows, MORE_WINDOWS);
        let mut of_turned = windows;
        of_turned.rotate_left(ticket.growers());
        assert_eq!(new_ticket(&turned(&ticket), &of_turned), turned(&new));
        tally.compared("growers as pilots");
        tally.kind_if(new != ticket, OTHER_TICKET);
    }
    tally.report("the same hours in other windows, and turned");
    tally.expect_at_least(TICKETS as u64 / 2, MORE_WINDOWS);
    tally.expect_at_least(TICKETS as u64 / 2, OTHER_TICKET);
}

const MORE_WINDOWS: &str = "more windows than before";
const OTHER_TICKET: &str = "a new ticket that differs";
