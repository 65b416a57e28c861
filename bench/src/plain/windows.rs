//! Weekly windows: of a ticket a new one, whose caps are no greater than the hours of the week that both of a pair have in
//! their windows.

use super::numbers::{Bytes, write_numbers};
use super::squares::SIDE;
use super::ticket::ticket_numbers;
use super::{Refusal, copy_to_front};

/// How many hours a week has.
pub const WEEK: u16 = 168;

/// The most windows of a party.
pub const MOST_WINDOWS: usize = 8;

/// Writes the new ticket at the front of a lent buffer, and returns its length. Windows are listed party by party, growers
/// first: a count, then the first and the closing hour of each.
pub fn narrow(ticket: &[u8], windows: &[u16], new_ticket: &mut [u8]) -> Result<usize, Refusal> {
    let mut numbers = ticket_numbers(Bytes(ticket))?;
    let (growers, pilots) = (usize::from(numbers[1]), usize::from(numbers[2]));
    let mut list = windows;
    let of_growers = hours_of(growers, &mut list)?;
    let of_pilots = hours_of(pilots, &mut list)?;
    if !list.is_empty() {
        return Err(Refusal::WindowsMiscounted);
    }
    let rows = numbers[3 + growers + pilots..].chunks_exact_mut(5 * pilots);
    for (row, of_grower) in rows.zip(&of_growers) {
        for (terms, of_pilot) in row.chunks_exact_mut(5).zip(&of_pilots) {
            limit(terms, of_grower.common(of_pilot));
        }
    }
    copy_to_front(&write_numbers(&numbers), new_ticket)
}

/// The five numbers of a pair that has so many common hours: tariff cap and its two amounts, free cap and its amount.
fn limit(terms: &mut [u16], common: u16) {
    lower(&mut terms[..3], common);
    let left = common - terms[0];
    lower(&mut terms[3..], left);
}

/// The cap of a deal falls to so many hours if it is greater. Without a cap there are no amounts.
fn lower(deal: &mut [u16], most: u16) {
    if most == 0 {
        deal.fill(0);
    } else {
        deal[0] = deal[0].min(most);
    }
}

/// Hours of the week, a bit for each.
#[derive(Clone, Copy, Default)]
struct Hours([u64; 3]);

impl Hours {
    /// Those before an hour.
    fn before(hour: u16) -> Hours {
        Hours([0, 64, 128].map(|begin| {
            let count = u32::from(hour.saturating_sub(begin));
            1u64.checked_shl(count).map_or(u64::MAX, |bit| bit - 1)
        }))
    }

    fn add(&mut self, first: u16, closing: u16) {
        let (before_first, before_closing) = (Hours::before(first), Hours::before(closing));
        for (word, hours) in self.0.iter_mut().enumerate() {
            *hours |= before_closing.0[word] & !before_first.0[word];
        }
    }

    fn common(&self, other: &Hours) -> u16 {
        let words = self.0.iter().zip(&other.0);
        words
            .map(|(one, other)| (one & other).count_ones())
            .sum::<u32>() as u16
    }
}

/// The hours in the windows of so many parties, which are taken from the front of the list.
fn hours_of(parties: usize, list: &mut &[u16]) -> Result<[Hours; SIDE], Refusal> {
    let mut all = [Hours::default(); SIDE];
    for hours in &mut all[..parties] {
        *hours = hours_in(next_windows(list)?)?;
    }
    Ok(all)
}

/// The first and closing hours of the next party.
fn next_windows<'a>(list: &mut &'a [u16]) -> Result<&'a [u16], Refusal> {
    let (&count, rest) = list.split_first().ok_or(Refusal::WindowsMiscounted)?;
    let count = usize::from(count);
    if count > MOST_WINDOWS {
        return Err(Refusal::WindowsMiscounted);
    }
    let (windows, rest) = rest
        .split_at_checked(2 * count)
        .ok_or(Refusal::WindowsMiscounted)?;
    *list = rest;
    Ok(windows)
}

fn hours_in(windows: &[u16]) -> Result<Hours, Refusal> {
    let mut hours = Hours::default();
    let mut closed = 0;
    for window in windows.chunks_exact(2) {
        let (first, closing) = (window[0], window[1]);
        if first < closed || closing <= first || WEEK < closing {
            return Err(Refusal::IllWindow);
        }
        hours.add(first, closing);
        closed = closing;
    }
    Ok(hours)
}
