//! All operations but settling.

use std::time::Duration;

use super::{
    ACCOUNT_NUMBERS, SHEET_BYTES, TICKET_BYTES, TICKET_NUMBERS, Table, mean_times, ratio, time,
};
use crate::draw::generator::Generator;
use crate::draw::shapes::{ONLY_FREE, RANDOM};
use crate::draw::windows::{listed, most_windows};
use crate::plain::account::account_into;
use crate::plain::mark::Verdict;
use crate::plain::settle::settled;
use crate::plain::settlement::Settlement;
use crate::plain::sheet::sheet;
use crate::plain::ticket::{Ticket, pack, unpack};
use crate::plain::windows::narrow;
use crate::plain::{Refusal, mark, quick};
use crate::proved;

/// Every other operation, on the random tickets of 16 by 16.
pub fn operations() -> Table {
    let tickets = RANDOM.shape().tickets;
    let files: Vec<_> = tickets.iter().map(Ticket::bytes).collect();
    let mut table = Table::new(&["16 by 16, random", "proved", "plain Rust", "ratio"]);
    let mut push = |name: &str, times: &dyn Fn() -> [Duration; 2]| {
        eprintln!("{name} ..");
        let [proved, plain] = times();
        table.push(name, vec![time(proved), time(plain), ratio(proved, plain)]);
    };
    push("unpack", &|| unpack_times(&files));
    push("pack", &|| pack_times(&tickets));
    let sound = settled_files(&tickets);
    let unsound = damaged_files(&tickets);
    let only_free = settled_files(&ONLY_FREE.shape().tickets);
    push("mark", &|| mark_times(&sound, quick::mark));
    push("mark, plain Rust trying every two spares", &|| {
        mark_times(&sound, mark::mark)
    });
    push("mark, an hour missing", &|| {
        mark_times(&unsound, quick::mark)
    });
    push("mark, only free deals", &|| {
        mark_times(&only_free, quick::mark)
    });
    push("account", &|| account_times(&sound));
    push("sheet", &|| sheet_times(&files));
    push("windows, eight of each party", &|| windows_times(&tickets));
    table
}

fn unpack_times(files: &[Vec<u8>]) -> [Duration; 2] {
    let (mut one, mut other) = ([0; TICKET_NUMBERS], [0; TICKET_NUMBERS]);
    mean_times(
        files,
        [
            &mut |file| proved::unpack(file, &mut one).is_ok(),
            &mut |file| unpack(file, &mut other).is_ok(),
        ],
    )
}

fn pack_times(tickets: &[Ticket]) -> [Duration; 2] {
    let lists: Vec<_> = tickets.iter().map(Ticket::numbers).collect();
    let (mut one, mut other) = ([0; TICKET_BYTES], [0; TICKET_BYTES]);
    mean_times(
        &lists,
        [
            &mut |list| proved::pack(list, &mut one).is_ok(),
            &mut |list| pack(list, &mut other).is_ok(),
        ],
    )
}

/// The files of a ticket and of a settlement of it.
type Files = (Vec<u8>, Vec<u8>);

fn settled_files(tickets: &[Ticket]) -> Vec<Files> {
    tickets
        .iter()
        .map(|ticket| (ticket.bytes(), settled(ticket).bytes()))
        .collect()
}

/// The same, with an hour less in the last tariff deal that has any.
fn damaged_files(tickets: &[Ticket]) -> Vec<Files> {
    let damaged = |ticket| {
        let mut settlement: Settlement = settled(ticket);
        let mut agreements = settlement.agreements.iter_mut().rev();
        if let Some(agreement) = agreements.find(|agreement| agreement.tariff_hours > 0) {
            agreement.tariff_hours -= 1;
        }
        settlement.bytes()
    };
    tickets
        .iter()
        .map(|ticket| (ticket.bytes(), damaged(ticket)))
        .collect()
}

type Marker = fn(&[u8], &[u8]) -> Result<Verdict, Refusal>;

fn mark_times(files: &[Files], plain: Marker) -> [Duration; 2] {
    mean_times(
        files,
        [
            &mut |(ticket, settlement)| proved::mark(ticket, settlement).is_ok(),
            &mut |(ticket, settlement)| plain(ticket, settlement).is_ok(),
        ],
    )
}

fn account_times(files: &[Files]) -> [Duration; 2] {
    let (mut one, mut other) = ([0; ACCOUNT_NUMBERS], [0; ACCOUNT_NUMBERS]);
    mean_times(
        files,
        [
            &mut |(ticket, settlement)| proved::account(ticket, settlement, &mut one).is_ok(),
            &mut |(ticket, settlement)| account_into(ticket, settlement, &mut other).is_ok(),
        ],
    )
}

fn sheet_times(files: &[Vec<u8>]) -> [Duration; 2] {
    let (mut one, mut other) = ([0; SHEET_BYTES], [0; SHEET_BYTES]);
    mean_times(
        files,
        [
            &mut |file| proved::sheet(file, &mut one).is_ok(),
            &mut |file| sheet(file, &mut other).is_ok(),
        ],
    )
}

fn windows_times(tickets: &[Ticket]) -> [Duration; 2] {
    let mut generator = Generator::new(0);
    let mut inputs = Vec::new();
    for ticket in tickets {
        let windows = most_windows(&mut generator, ticket.growers() + ticket.pilots());
        inputs.push((ticket.bytes(), listed(&windows)));
    }
    let (mut one, mut other) = ([0; TICKET_BYTES], [0; TICKET_BYTES]);
    mean_times(
        &inputs,
        [
            &mut |(file, list)| proved::windows(file, list, &mut one).is_ok(),
            &mut |(file, list)| narrow(file, list, &mut other).is_ok(),
        ],
    )
}
