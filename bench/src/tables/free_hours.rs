//! Everybody's free hours as a market holds them, beside sums over its deals.

use std::hint::black_box;
use std::ops::Range;
use std::time::Duration;

use super::calls::proved_market;
use super::{Table, mean_times, ratio, time_of_each};
use crate::draw::shapes::{KINDS, Kind};
use crate::plain::free_hours::FreeHours;
use crate::plain::open_market::{
    GROWER_FREE_HOURS, MARKET_NUMBERS, PILOT_FREE_HOURS, TICKET_NUMBERS,
};

/// The list of a market.
type List = [u16; MARKET_NUMBERS];

/// One kind of tickets for each size: which hours they have changes neither reading nor sums.
const OF_SIZES: Range<usize> = 0..3;

/// How often they are taken in a row: once may be shorter than what a `Duration` tells apart.
const TIMES: u32 = 64;

/// A row for each size.
pub fn free_hours() -> Table {
    let header = [
        "free hours of everybody",
        "read as held",
        "summed over all deals",
        "sums to reading",
    ];
    let mut table = Table::new(&header);
    for kind in &KINDS[OF_SIZES] {
        eprintln!("{}: {} ..", header[0], kind.name);
        let [read, summed] = times_of(kind);
        table.push(
            kind.name,
            vec![
                time_of_each(read, TIMES),
                time_of_each(summed, TIMES),
                ratio(summed, read),
            ],
        );
    }
    table
}

/// Reading and summing, each so many times.
fn times_of(kind: &Kind) -> [Duration; 2] {
    let markets: Vec<_> = kind.shape().tickets.iter().map(proved_market).collect();
    assert!(markets.iter().all(|list| read(list) == summed(list)));
    mean_times(
        &markets,
        [&mut |list| many_times(list, read), &mut |list| {
            many_times(list, summed)
        }],
    )
}

/// The compiler knows neither the list nor what becomes of the numbers, so that all are taken each time.
fn many_times(list: &List, function: impl Fn(&List) -> FreeHours) -> bool {
    for _ in 0..TIMES {
        black_box(function(black_box(list)));
    }
    true
}

/// As the list holds them.
fn read(list: &List) -> FreeHours {
    let mut free = FreeHours::default();
    free.growers
        .copy_from_slice(&list[GROWER_FREE_HOURS..PILOT_FREE_HOURS]);
    free.pilots
        .copy_from_slice(&list[PILOT_FREE_HOURS..MARKET_NUMBERS]);
    free
}

/// Everybody's hours in the ticket, less those of all deals in the settlement.
fn summed(list: &List) -> FreeHours {
    let (growers, pilots) = (usize::from(list[1]), usize::from(list[2]));
    let (grower_hours, others) = list[3..TICKET_NUMBERS].split_at(growers);
    let mut free = FreeHours::default();
    free.growers[..growers].copy_from_slice(grower_hours);
    free.pilots[..pilots].copy_from_slice(&others[..pilots]);
    let agreements = list[TICKET_NUMBERS + 3..GROWER_FREE_HOURS].chunks_exact(3 * pilots);
    for (grower, row) in free.growers[..growers].iter_mut().zip(agreements) {
        for (pilot, numbers) in free.pilots.iter_mut().zip(row.chunks_exact(3)) {
            let hours = numbers[0] + numbers[1];
            *grower -= hours;
            *pilot -= hours;
        }
    }
    free
}
