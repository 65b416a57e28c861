//! What a guess does with rows of pilots and of growers.

use std::array::from_fn;

use super::super::rows::ALL;
use super::super::squares::Row;

/// What the tariffs of a grower offer him now: those count that pay what the pilot asks.
pub(super) fn tariff_offers(open: &Row, pay: &Row, asked: &Row) -> Row {
    from_fn(|pilot| {
        if asked[pilot] <= pay[pilot] {
            open[pilot]
        } else {
            0
        }
    })
}

/// The better offer of each pilot, by tariff or free deal.
pub(super) fn better_offers(free: &Row, price: &Row, by_tariff: &Row) -> Row {
    from_fn(|pilot| by_tariff[pilot].max(free[pilot].saturating_sub(price[pilot])))
}

/// The numbers of pilots who are not reached.
pub(super) fn unreached(row: &Row, reached: &Row) -> Row {
    from_fn(|pilot| row[pilot] & !reached[pilot])
}

/// When free deals of pilots not reached tie with an hour that is worth so much now and falls.
pub(super) fn tie_times(free: &Row, price: &Row, reached: &Row, worth: u16, now: u16) -> Row {
    from_fn(|pilot| {
        let offer = free[pilot].saturating_sub(price[pilot]);
        worth.saturating_sub(offer).saturating_add(now) | reached[pilot]
    })
}

/// After what time tariffs tie with it: what a pilot reached asks for rises meanwhile.
pub(super) fn tariff_waits(offers: &Row, pay: &Row, asked: &Row, reached: &Row, worth: u16) -> Row {
    from_fn(|pilot| {
        let wait = worth.saturating_sub(offers[pilot]);
        if asked[pilot].saturating_add(wait & reached[pilot]) <= pay[pilot] {
            wait
        } else {
            ALL
        }
    })
}

/// What hours are worth to growers when the price is so much higher; all ones stay.
pub(super) fn fallen(worths: &Row, by: u16) -> Row {
    worths.map(|worth| match worth {
        ALL => ALL,
        worth => worth.saturating_sub(by),
    })
}

/// When growers are to be looked at whose hours are worth so much: not before the most that they are offered ties.
pub(super) fn look_times(worth: &Row, most: &Row, now: u16) -> Row {
    from_fn(|grower| {
        worth[grower]
            .saturating_sub(most[grower])
            .saturating_add(now)
    })
}

/// Takes over other numbers where the test is not 0.
pub(super) fn note(row: &mut Row, test: &Row, other: &Row) {
    for ((number, &test), &other) in row.iter_mut().zip(test).zip(other) {
        let old = *number;
        *number = if test == 0 { old } else { other };
    }
}

/// Adds the same wherever the mark is all ones.
pub(super) fn lift(row: &mut Row, marks: &Row, by: u16) {
    for (number, mark) in row.iter_mut().zip(marks) {
        *number = number.saturating_add(by & mark);
    }
}
