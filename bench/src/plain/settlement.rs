//! The settlement: its numbers, reading it for a ticket, and writing it.

use super::numbers::{Bytes, Ill, List, Source, write_numbers};
use super::ticket::Ticket;
use super::{Refusal, copy_to_front};

pub(super) const KIND: u16 = 2;

/// What a settlement says of a pair.
#[derive(Clone, Copy, Debug, Default, PartialEq, Eq)]
pub struct Agreement {
    pub tariff_hours: u16,
    pub free_deal_hours: u16,
    /// The pilot's pay per free-deal hour.
    pub pay: u16,
}

impl Agreement {
    /// In the order of the file.
    pub(super) fn numbers(&self) -> [u16; 3] {
        [self.tariff_hours, self.free_deal_hours, self.pay]
    }
}

#[derive(Clone, Debug, PartialEq, Eq)]
pub struct Settlement {
    pub growers: usize,
    pub pilots: usize,
    /// In the ticket's order of pairs.
    pub agreements: Vec<Agreement>,
}

impl Settlement {
    /// The settlement without any hours.
    pub fn empty(ticket: &Ticket) -> Settlement {
        Settlement {
            growers: ticket.growers(),
            pilots: ticket.pilots(),
            agreements: vec![Agreement::default(); ticket.pairs()],
        }
    }

    pub fn read(bytes: &[u8], ticket: &Ticket) -> Result<Settlement, Refusal> {
        let mut source = Bytes(bytes);
        let agreements = agreements(&mut source, ticket.growers(), ticket.pilots())?;
        Ok(Settlement {
            growers: ticket.growers(),
            pilots: ticket.pilots(),
            agreements,
        })
    }

    pub fn agreement(&self, grower: usize, pilot: usize) -> &Agreement {
        &self.agreements[grower * self.pilots + pilot]
    }

    /// The numbers in the order of the file.
    pub fn numbers(&self) -> Vec<u16> {
        let mut numbers = Vec::with_capacity(3 + 3 * self.agreements.len());
        numbers.extend([KIND, self.growers as u16, self.pilots as u16]);
        numbers.extend(self.agreements.iter().flat_map(Agreement::numbers));
        numbers
    }

    pub fn bytes(&self) -> Vec<u8> {
        write_numbers(&self.numbers())
    }
}

/// The bytes of a settlement of a ticket with so many growers and pilots as its list of numbers. Returns their count.
pub fn read_settlement(
    bytes: &[u8],
    growers: usize,
    pilots: usize,
    list: &mut [u16],
) -> Result<usize, Refusal> {
    let settlement = of_size(&mut Bytes(bytes), growers, pilots)?;
    copy_to_front(&settlement.numbers(), list)
}

/// The reverse. A number that two bytes do not hold is refused as its second byte would be.
pub fn write_settlement(
    list: &[u16],
    growers: usize,
    pilots: usize,
    bytes: &mut [u8],
) -> Result<usize, Refusal> {
    let settlement = of_size(&mut Short(List(list)), growers, pilots)?;
    copy_to_front(&settlement.bytes(), bytes)
}

/// No ticket has more growers or pilots than 16.
fn of_size(source: &mut impl Source, growers: usize, pilots: usize) -> Result<Settlement, Refusal> {
    if growers > 16 || pilots > 16 {
        return Err(Refusal::OtherParties);
    }
    Ok(Settlement {
        growers,
        pilots,
        agreements: agreements(source, growers, pilots)?,
    })
}

/// A list whose numbers fit two bytes.
struct Short<'a>(List<'a>);

impl Source for Short<'_> {
    fn next_number(&mut self) -> Result<u16, Ill> {
        match self.0.next_number()? {
            number if number < 1 << 14 => Ok(number),
            _ => Err(Ill::SecondByteHasTopBit),
        }
    }

    fn is_finished(&self) -> bool {
        self.0.is_finished()
    }
}

fn agreements(
    source: &mut impl Source,
    growers: usize,
    pilots: usize,
) -> Result<Vec<Agreement>, Refusal> {
    expect(source, KIND, Refusal::NoSettlement)?;
    expect(source, growers as u16, Refusal::OtherParties)?;
    expect(source, pilots as u16, Refusal::OtherParties)?;
    let mut agreements = Vec::with_capacity(growers * pilots);
    for _ in 0..growers * pilots {
        agreements.push(Agreement {
            tariff_hours: next_number(source)?,
            free_deal_hours: next_number(source)?,
            pay: next_number(source)?,
        });
    }
    if source.is_finished() {
        Ok(agreements)
    } else {
        Err(Refusal::SettlementBytesLeft)
    }
}

fn next_number(source: &mut impl Source) -> Result<u16, Refusal> {
    source.next_number().map_err(|ill| match ill {
        Ill::EndsEarly => Refusal::SettlementEndsEarly,
        Ill::SecondByteHasTopBit => Refusal::SettlementSecondByteHasTopBit,
        Ill::SecondByteIsZero => Refusal::SettlementSecondByteIsZero,
    })
}

fn expect(source: &mut impl Source, number: u16, why: Refusal) -> Result<(), Refusal> {
    if next_number(source)? == number {
        Ok(())
    } else {
        Err(why)
    }
}
