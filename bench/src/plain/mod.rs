//! The exchange in plain Rust, written from the paper and not from the proved code. Only settling follows the proved
//! program's method, choice for choice, because it is also the yardstick for its speed.

pub mod account;
pub mod certificate;
pub mod flow;
pub mod free_hours;
pub mod guess;
pub mod mark;
pub mod method;
pub mod numbers;
pub mod open_market;
pub mod quick;
mod rows;
pub mod settle;
pub mod settlement;
pub mod sheet;
pub mod squares;
pub mod ticket;
pub mod windows;

/// Why an operation refuses; the numbers are the paper's.
#[derive(Clone, Copy, Debug, PartialEq, Eq)]
#[repr(u8)]
pub enum Refusal {
    EndsEarly = 1,
    SecondByteHasTopBit = 2,
    SecondByteIsZero = 3,
    NoTicket = 4,
    PartiesOutOfRange = 5,
    HoursAboveLimit = 6,
    TermAboveLimit = 7,
    AmountWithoutCap = 8,
    BytesLeft = 9,
    NoRoom = 10,
    SettlementEndsEarly = 11,
    SettlementSecondByteHasTopBit = 12,
    SettlementSecondByteIsZero = 13,
    NoSettlement = 14,
    OtherParties = 15,
    SettlementBytesLeft = 16,
    NotSound = 17,
    CapWithoutHours = 18,
    NoSuchParty = 19,
    AgainstLimits = 20,
    WindowsMiscounted = 21,
    IllWindow = 22,
}

/// The two deals of a pair.
#[derive(Clone, Copy, Debug, PartialEq, Eq)]
pub enum Deal {
    Tariff,
    Free,
}

impl Deal {
    /// In the order of the marker's walk.
    pub const BOTH: [Deal; 2] = [Deal::Tariff, Deal::Free];
}

/// Copies what was made to the front of a lent buffer, which is left alone if it is too short.
fn copy_to_front<T: Copy>(made: &[T], lent: &mut [T]) -> Result<usize, Refusal> {
    let front = lent.get_mut(..made.len()).ok_or(Refusal::NoRoom)?;
    front.copy_from_slice(made);
    Ok(made.len())
}
