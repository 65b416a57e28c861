//! The open market: a ticket that calls change, a sound settlement of it, and everybody's free hours.

use super::Refusal;
use super::free_hours::FreeHours;
use super::numbers::Bytes;
use super::settle::settled_squares;
use super::settlement::Settlement;
use super::squares::{SIDE, SettlementSquares, TicketSquares};
use super::ticket::{MOST_AMOUNT, MOST_HOURS, MOST_NUMBERS, Terms, Ticket, ticket_numbers};

/// The places of a ticket's numbers in the list of a market, and those of a settlement's after them.
pub const TICKET_NUMBERS: usize = MOST_NUMBERS;
const SETTLEMENT_NUMBERS: usize = 771;

/// Where in the list the growers' free hours begin, and the pilots'.
pub const GROWER_FREE_HOURS: usize = TICKET_NUMBERS + SETTLEMENT_NUMBERS;
pub const PILOT_FREE_HOURS: usize = GROWER_FREE_HOURS + SIDE;
pub const MARKET_NUMBERS: usize = PILOT_FREE_HOURS + SIDE;

/// How many numbers a call has in a list of calls.
pub const CALL_NUMBERS: usize = 8;

#[derive(Clone, Copy, Debug, PartialEq, Eq)]
pub enum Call {
    GrowerHours {
        grower: u16,
        hours: u16,
    },
    PilotHours {
        pilot: u16,
        hours: u16,
    },
    Pair {
        grower: u16,
        pilot: u16,
        terms: Terms,
    },
}

impl Call {
    /// As in a list of calls; after hours stand zeros.
    pub fn numbers(&self) -> [u16; CALL_NUMBERS] {
        match *self {
            Call::GrowerHours { grower, hours } => [1, grower, hours, 0, 0, 0, 0, 0],
            Call::PilotHours { pilot, hours } => [2, pilot, hours, 0, 0, 0, 0, 0],
            Call::Pair {
                grower,
                pilot,
                terms,
            } => {
                let [tariff_cap, gain, pay, free_cap, joint_gain] = terms.numbers();
                [
                    3, grower, pilot, tariff_cap, gain, pay, free_cap, joint_gain,
                ]
            }
        }
    }

    /// The call of these numbers, if they are one.
    fn from_numbers(numbers: &[u16]) -> Option<Call> {
        let [kind, one, two, terms @ ..] = <[u16; CALL_NUMBERS]>::try_from(numbers).ok()?;
        match kind {
            1 => Some(Call::GrowerHours {
                grower: one,
                hours: two,
            }),
            2 => Some(Call::PilotHours {
                pilot: one,
                hours: two,
            }),
            3 => Some(Call::Pair {
                grower: one,
                pilot: two,
                terms: Terms::from_numbers(&terms),
            }),
            _ => None,
        }
    }
}

#[derive(Clone, Debug, PartialEq, Eq)]
pub struct OpenMarket {
    ticket: TicketSquares,
    settlement: SettlementSquares,
    free_hours: FreeHours,
}

impl OpenMarket {
    pub fn open(file: &[u8]) -> Result<OpenMarket, Refusal> {
        let ticket = TicketSquares::from_numbers(&ticket_numbers(Bytes(file))?);
        let settlement = settled_squares(&ticket);
        let free_hours = FreeHours::left_by(&ticket, &settlement);
        Ok(OpenMarket {
            ticket,
            settlement,
            free_hours,
        })
    }

    pub fn ticket(&self) -> Ticket {
        self.ticket.ticket()
    }

    pub fn settlement(&self) -> Settlement {
        self.settlement
            .settlement(self.ticket.growers, self.ticket.pilots)
    }

    /// All as the list of a market: the ticket's numbers, the settlement's, each with zeros after them, and the free hours.
    pub fn numbers(&self) -> Vec<u16> {
        let mut numbers = self.ticket().numbers();
        numbers.resize(TICKET_NUMBERS, 0);
        numbers.extend(self.settlement().numbers());
        numbers.resize(GROWER_FREE_HOURS, 0);
        numbers.extend(self.free_hours.growers);
        numbers.extend(self.free_hours.pilots);
        numbers
    }

    /// Makes a call. If it is refused, nothing is changed.
    pub fn call(&mut self, call: Call) -> Result<(), Refusal> {
        match call {
            Call::GrowerHours { grower, hours } => self.set_grower_hours(grower, hours)?,
            Call::PilotHours { pilot, hours } => self.set_pilot_hours(pilot, hours)?,
            Call::Pair {
                grower,
                pilot,
                terms,
            } => self.set_pair(grower, pilot, terms)?,
        }
        self.settlement = settled_squares(&self.ticket);
        self.free_hours = FreeHours::left_by(&self.ticket, &self.settlement);
        Ok(())
    }

    /// Makes a list of calls, each in turn. The answer is the first refusal. What is no call is refused.
    pub fn replay(&mut self, calls: &[u16]) -> Result<(), Refusal> {
        let mut answer = Ok(());
        for numbers in calls.chunks(CALL_NUMBERS) {
            let made = match Call::from_numbers(numbers) {
                Some(call) => self.call(call),
                None => Err(Refusal::AgainstLimits),
            };
            answer = answer.and(made);
        }
        answer
    }

    fn set_grower_hours(&mut self, grower: u16, hours: u16) -> Result<(), Refusal> {
        let grower = party(grower, self.ticket.growers)?;
        within(hours <= MOST_HOURS)?;
        self.ticket.grower_hours[grower] = hours;
        if hours == 0 {
            for pilot in 0..self.ticket.pilots {
                self.ticket.set_terms(grower, pilot, Terms::default());
            }
        }
        Ok(())
    }

    fn set_pilot_hours(&mut self, pilot: u16, hours: u16) -> Result<(), Refusal> {
        let pilot = party(pilot, self.ticket.pilots)?;
        within(hours <= MOST_HOURS)?;
        self.ticket.pilot_hours[pilot] = hours;
        if hours == 0 {
            for grower in 0..self.ticket.growers {
                self.ticket.set_terms(grower, pilot, Terms::default());
            }
        }
        Ok(())
    }

    fn set_pair(&mut self, grower: u16, pilot: u16, terms: Terms) -> Result<(), Refusal> {
        let grower = party(grower, self.ticket.growers)?;
        let pilot = party(pilot, self.ticket.pilots)?;
        let have_hours = self.ticket.grower_hours[grower] > 0 && self.ticket.pilot_hours[pilot] > 0;
        within(is_deal(
            terms.tariff_cap,
            &[terms.tariff_gain, terms.tariff_pay],
            have_hours,
        ))?;
        within(is_deal(terms.free_cap, &[terms.joint_gain], have_hours))?;
        self.ticket.set_terms(grower, pilot, terms);
        Ok(())
    }
}

/// The party of this number, if there are so many.
fn party(number: u16, count: usize) -> Result<usize, Refusal> {
    let party = usize::from(number);
    (party < count).then_some(party).ok_or(Refusal::NoSuchParty)
}

fn within(limits: bool) -> Result<(), Refusal> {
    limits.then_some(()).ok_or(Refusal::AgainstLimits)
}

/// A cap above 0 is of a deal between two who have hours; a deal of cap 0 has no amounts.
fn is_deal(cap: u16, amounts: &[u16], have_hours: bool) -> bool {
    if cap == 0 {
        amounts.iter().all(|&amount| amount == 0)
    } else {
        have_hours && cap <= MOST_HOURS && amounts.iter().all(|&amount| amount <= MOST_AMOUNT)
    }
}
