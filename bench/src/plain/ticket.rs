//! The ticket: its numbers and their ranges, unpacking and packing.

use super::numbers::{Bytes, Ill, List, Source, write_numbers};
use super::{Refusal, copy_to_front};

const KIND: u16 = 1;
const MOST_PARTIES: u16 = 16;
pub const MOST_HOURS: u16 = 60;
pub const MOST_AMOUNT: u16 = 500;
pub(super) const MOST_NUMBERS: usize = 1315;

/// How many cents a euro has.
pub const CENTS: u16 = 100;

/// What a ticket says of a pair. Amounts are euros per hour.
#[derive(Clone, Copy, Debug, Default, PartialEq, Eq)]
pub struct Terms {
    pub tariff_cap: u16,
    pub tariff_gain: u16,
    pub tariff_pay: u16,
    pub free_cap: u16,
    pub joint_gain: u16,
}

#[derive(Clone, Debug, PartialEq, Eq)]
pub struct Ticket {
    pub grower_hours: Vec<u16>,
    pub pilot_hours: Vec<u16>,
    /// Grower by grower, and within it pilot by pilot.
    pub terms: Vec<Terms>,
}

impl Ticket {
    pub fn read(bytes: &[u8]) -> Result<Ticket, Refusal> {
        Ok(Ticket::from_numbers(&ticket_numbers(Bytes(bytes))?))
    }

    pub fn growers(&self) -> usize {
        self.grower_hours.len()
    }

    pub fn pilots(&self) -> usize {
        self.pilot_hours.len()
    }

    pub fn pairs(&self) -> usize {
        self.growers() * self.pilots()
    }

    pub fn terms(&self, grower: usize, pilot: usize) -> &Terms {
        &self.terms[grower * self.pilots() + pilot]
    }

    /// Whether some tariff cap is above 0.
    pub fn has_tariff_deal(&self) -> bool {
        self.terms.iter().any(|terms| terms.tariff_cap > 0)
    }

    /// The ticket of numbers that have passed their checks.
    pub(crate) fn from_numbers(numbers: &[u16]) -> Ticket {
        let parts = Parts::of(numbers);
        Ticket {
            grower_hours: parts.grower_hours.to_vec(),
            pilot_hours: parts.pilot_hours.to_vec(),
            terms: parts
                .terms
                .chunks_exact(5)
                .map(Terms::from_numbers)
                .collect(),
        }
    }

    /// The ticket with every amount so many times as high, in range of a ticket's file or not.
    pub fn with_amounts_times(&self, factor: u16) -> Ticket {
        let times = |terms: &Terms| Terms {
            tariff_gain: factor * terms.tariff_gain,
            tariff_pay: factor * terms.tariff_pay,
            joint_gain: factor * terms.joint_gain,
            ..*terms
        };
        Ticket {
            terms: self.terms.iter().map(times).collect(),
            ..self.clone()
        }
    }

    /// The numbers in the order of the file, in range or not.
    pub fn numbers(&self) -> Vec<u16> {
        let mut numbers = vec![KIND, self.growers() as u16, self.pilots() as u16];
        numbers.extend(&self.grower_hours);
        numbers.extend(&self.pilot_hours);
        numbers.extend(self.terms.iter().flat_map(Terms::numbers));
        numbers
    }

    pub fn bytes(&self) -> Vec<u8> {
        write_numbers(&self.numbers())
    }
}

impl Terms {
    /// Whether a free-deal hour gains more than two spares of these worths are worth together.
    pub(super) fn gain_beyond(&self, one: u16, other: u16) -> bool {
        u32::from(self.joint_gain) > u32::from(one) + u32::from(other)
    }

    pub(super) fn from_numbers(numbers: &[u16]) -> Terms {
        Terms {
            tariff_cap: numbers[0],
            tariff_gain: numbers[1],
            tariff_pay: numbers[2],
            free_cap: numbers[3],
            joint_gain: numbers[4],
        }
    }

    /// In the order of the file.
    pub fn numbers(&self) -> [u16; 5] {
        [
            self.tariff_cap,
            self.tariff_gain,
            self.tariff_pay,
            self.free_cap,
            self.joint_gain,
        ]
    }
}

/// The numbers of a ticket after its kind, growers and pilots.
pub(super) struct Parts<'a> {
    pub(super) grower_hours: &'a [u16],
    pub(super) pilot_hours: &'a [u16],
    /// Five numbers for each pair.
    pub(super) terms: &'a [u16],
}

impl Parts<'_> {
    /// Of numbers that have passed their checks.
    pub(super) fn of(numbers: &[u16]) -> Parts<'_> {
        let (growers, pilots) = (usize::from(numbers[1]), usize::from(numbers[2]));
        let (grower_hours, rest) = numbers[3..].split_at(growers);
        let (pilot_hours, terms) = rest.split_at(pilots);
        Parts {
            grower_hours,
            pilot_hours,
            terms,
        }
    }
}

/// Turns a ticket's bytes into its list of numbers, and returns their count.
pub fn unpack(ticket: &[u8], list: &mut [u16]) -> Result<usize, Refusal> {
    copy_to_front(&ticket_numbers(Bytes(ticket))?, list)
}

/// Turns a ticket's list of numbers into its bytes, and returns their count.
pub fn pack(list: &[u16], ticket: &mut [u8]) -> Result<usize, Refusal> {
    copy_to_front(&write_numbers(&ticket_numbers(List(list))?), ticket)
}

impl From<Ill> for Refusal {
    fn from(ill: Ill) -> Refusal {
        match ill {
            Ill::EndsEarly => Refusal::EndsEarly,
            Ill::SecondByteHasTopBit => Refusal::SecondByteHasTopBit,
            Ill::SecondByteIsZero => Refusal::SecondByteIsZero,
        }
    }
}

/// All numbers of a ticket, each checked as it is read.
pub(super) fn ticket_numbers(source: impl Source) -> Result<Vec<u16>, Refusal> {
    let mut reading = Reading {
        source,
        numbers: Vec::with_capacity(MOST_NUMBERS),
    };
    reading.all()?;
    Ok(reading.numbers)
}

struct Reading<S> {
    source: S,
    numbers: Vec<u16>,
}

impl<S: Source> Reading<S> {
    fn all(&mut self) -> Result<(), Refusal> {
        self.number(|kind| kind == KIND, Refusal::NoTicket)?;
        let growers = self.parties()?;
        let pilots = self.parties()?;
        let growers_without = self.without_hours(growers)?;
        let pilots_without = self.without_hours(pilots)?;
        for grower in 0..growers {
            for pilot in 0..pilots {
                let without = (growers_without >> grower | pilots_without >> pilot) & 1 != 0;
                self.deal(2, without)?;
                self.deal(1, without)?;
            }
        }
        if self.source.is_finished() {
            Ok(())
        } else {
            Err(Refusal::BytesLeft)
        }
    }

    fn number(&mut self, good: impl Fn(u16) -> bool, why: Refusal) -> Result<u16, Refusal> {
        let number = self.source.next_number()?;
        if !good(number) {
            return Err(why);
        }
        self.numbers.push(number);
        Ok(number)
    }

    fn parties(&mut self) -> Result<u16, Refusal> {
        self.number(
            |count| (1..=MOST_PARTIES).contains(&count),
            Refusal::PartiesOutOfRange,
        )
    }

    /// The hours of so many parties; the answer has a bit for each that has none.
    fn without_hours(&mut self, parties: u16) -> Result<u16, Refusal> {
        let mut without = 0;
        for party in 0..parties {
            let hours = self.number(|hours| hours <= MOST_HOURS, Refusal::HoursAboveLimit)?;
            without |= u16::from(hours == 0) << party;
        }
        Ok(without)
    }

    /// A cap, which is 0 if the grower or the pilot is without hours, and so many amounts, which are 0 if the cap is.
    fn deal(&mut self, amounts: usize, without_hours: bool) -> Result<(), Refusal> {
        let cap = self.number(|cap| cap <= MOST_HOURS, Refusal::TermAboveLimit)?;
        if without_hours && cap != 0 {
            return Err(Refusal::CapWithoutHours);
        }
        for _ in 0..amounts {
            let amount = self.number(|amount| amount <= MOST_AMOUNT, Refusal::TermAboveLimit)?;
            if cap == 0 && amount != 0 {
                return Err(Refusal::AmountWithoutCap);
            }
        }
        Ok(())
    }
}
