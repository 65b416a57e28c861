//! Tickets and settlements as squares of growers by pilots, which guessing and its certificate work on.

use super::numbers::write_number;
use super::settlement::{Agreement, KIND, Settlement};
use super::ticket::{Parts, Terms, Ticket};

/// The most growers, and the most pilots.
pub const SIDE: usize = 16;

/// A number for each grower or each pilot: of 16 bits, so that a loop over a row becomes vector code.
pub type Row = [u16; SIDE];

/// Rows of growers.
pub type Square = [Row; SIDE];

const EMPTY: Square = [[0; SIDE]; SIDE];

/// A ticket. Beyond its growers and pilots all numbers are 0.
#[derive(Clone, Debug, PartialEq, Eq)]
pub struct TicketSquares {
    pub growers: usize,
    pub pilots: usize,
    pub grower_hours: Row,
    pub pilot_hours: Row,
    pub tariff_cap: Square,
    pub tariff_gain: Square,
    pub tariff_pay: Square,
    pub free_cap: Square,
    pub joint_gain: Square,
}

/// A settlement of a ticket, in the same way.
#[derive(Clone, Debug, PartialEq, Eq)]
pub struct SettlementSquares {
    pub tariff_hours: Square,
    pub free_deal_hours: Square,
    /// The pilot's pay per free-deal hour.
    pub pay: Square,
}

impl TicketSquares {
    pub fn of(ticket: &Ticket) -> TicketSquares {
        TicketSquares::from_numbers(&ticket.numbers())
    }

    /// The ticket of numbers that have passed their checks.
    pub(super) fn from_numbers(numbers: &[u16]) -> TicketSquares {
        let parts = Parts::of(numbers);
        let (growers, pilots) = (parts.grower_hours.len(), parts.pilot_hours.len());
        let mut squares = TicketSquares {
            growers,
            pilots,
            grower_hours: row_of(parts.grower_hours),
            pilot_hours: row_of(parts.pilot_hours),
            tariff_cap: EMPTY,
            tariff_gain: EMPTY,
            tariff_pay: EMPTY,
            free_cap: EMPTY,
            joint_gain: EMPTY,
        };
        for (grower, row) in parts.terms.chunks_exact(5 * pilots).enumerate() {
            for (pilot, terms) in row.chunks_exact(5).enumerate() {
                squares.set_terms(grower, pilot, Terms::from_numbers(terms));
            }
        }
        squares
    }

    /// The ticket of these squares.
    pub(super) fn ticket(&self) -> Ticket {
        let terms = |pair| self.terms(pair / self.pilots, pair % self.pilots);
        Ticket {
            grower_hours: self.grower_hours[..self.growers].to_vec(),
            pilot_hours: self.pilot_hours[..self.pilots].to_vec(),
            terms: (0..self.growers * self.pilots).map(terms).collect(),
        }
    }

    fn terms(&self, grower: usize, pilot: usize) -> Terms {
        Terms {
            tariff_cap: self.tariff_cap[grower][pilot],
            tariff_gain: self.tariff_gain[grower][pilot],
            tariff_pay: self.tariff_pay[grower][pilot],
            free_cap: self.free_cap[grower][pilot],
            joint_gain: self.joint_gain[grower][pilot],
        }
    }

    pub(super) fn set_terms(&mut self, grower: usize, pilot: usize, terms: Terms) {
        self.tariff_cap[grower][pilot] = terms.tariff_cap;
        self.tariff_gain[grower][pilot] = terms.tariff_gain;
        self.tariff_pay[grower][pilot] = terms.tariff_pay;
        self.free_cap[grower][pilot] = terms.free_cap;
        self.joint_gain[grower][pilot] = terms.joint_gain;
    }
}

impl SettlementSquares {
    pub fn of(settlement: &Settlement) -> SettlementSquares {
        let square = |number: fn(&Agreement) -> u16| {
            let mut square = EMPTY;
            let rows = settlement.agreements.chunks_exact(settlement.pilots);
            for (numbers, row) in square.iter_mut().zip(rows) {
                for (place, agreement) in numbers.iter_mut().zip(row) {
                    *place = number(agreement);
                }
            }
            square
        };
        SettlementSquares {
            tariff_hours: square(|agreement| agreement.tariff_hours),
            free_deal_hours: square(|agreement| agreement.free_deal_hours),
            pay: square(|agreement| agreement.pay),
        }
    }

    /// The settlement of so many growers and pilots.
    pub fn settlement(&self, growers: usize, pilots: usize) -> Settlement {
        let agreement = |pair| self.agreement(pair / pilots, pair % pilots);
        Settlement {
            growers,
            pilots,
            agreements: (0..growers * pilots).map(agreement).collect(),
        }
    }

    /// Its file.
    pub fn bytes(&self, growers: usize, pilots: usize) -> Vec<u8> {
        let mut bytes = Vec::with_capacity(3 + 4 * growers * pilots);
        for number in [KIND, growers as u16, pilots as u16] {
            write_number(number, &mut bytes);
        }
        for grower in 0..growers {
            for pilot in 0..pilots {
                for number in self.agreement(grower, pilot).numbers() {
                    write_number(number, &mut bytes);
                }
            }
        }
        bytes
    }

    fn agreement(&self, grower: usize, pilot: usize) -> Agreement {
        Agreement {
            tariff_hours: self.tariff_hours[grower][pilot],
            free_deal_hours: self.free_deal_hours[grower][pilot],
            pay: self.pay[grower][pilot],
        }
    }
}

fn row_of(numbers: &[u16]) -> Row {
    let mut row = [0; SIDE];
    row[..numbers.len()].copy_from_slice(numbers);
    row
}
