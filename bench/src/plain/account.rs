//! The account of a sound settlement: what everybody gains or earns, and what the exchange takes of each pilot's pay.

use super::mark::{Finding, grower_earns, pilot_earns};
use super::quick::judge;
use super::settlement::Settlement;
use super::ticket::Ticket;
use super::{Deal, Refusal, copy_to_front};

/// Each grower's gain in euros; then, for each pilot, the pay in euros and the commission in cents.
pub fn account(ticket: &[u8], settlement: &[u8]) -> Result<Vec<u32>, Refusal> {
    let ticket = Ticket::read(ticket)?;
    let settlement = Settlement::read(settlement, &ticket)?;
    if judge(&ticket, &settlement).finding != Finding::Sound {
        return Err(Refusal::NotSound);
    }
    let mut gains = vec![0; ticket.growers()];
    let mut pays = vec![0; ticket.pilots()];
    for (grower, gain) in gains.iter_mut().enumerate() {
        for (pilot, pay) in pays.iter_mut().enumerate() {
            let terms = ticket.terms(grower, pilot);
            let agreement = settlement.agreement(grower, pilot);
            for deal in Deal::BOTH {
                let (hours, worth) = grower_earns(terms, agreement, deal);
                *gain += u32::from(hours) * u32::from(worth);
                let (hours, worth) = pilot_earns(terms, agreement, deal);
                *pay += u32::from(hours) * u32::from(worth);
            }
        }
    }
    let of_pilots = pays.into_iter().flat_map(|pay| [pay, commission(pay)]);
    Ok(gains.into_iter().chain(of_pilots).collect())
}

/// Copies an account into a lent list.
pub fn account_into(ticket: &[u8], settlement: &[u8], list: &mut [u32]) -> Result<usize, Refusal> {
    copy_to_front(&account(ticket, settlement)?, list)
}

/// Of the first 200 euros 65 per mille, of the next 600 euros 42, of the rest 25, in cents; a half cent goes up.
fn commission(euros: u32) -> u32 {
    let first = euros.min(200);
    let next = (euros - first).min(600);
    let rest = euros - first - next;
    // per mille of euros are tenths of a cent
    let tenths = 65 * first + 42 * next + 25 * rest;
    (tenths + 5) / 10
}

#[cfg(test)]
mod tests {
    use super::commission;

    #[test]
    fn the_papers_euro() {
        assert_eq!(commission(1), 7);
    }
}
