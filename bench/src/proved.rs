//! The proved exchange, called over its C interface.

use crate::plain::Deal;
use crate::plain::open_market::MARKET_NUMBERS;

/// A refusal of the C interface, or what it answers else.
pub type Answer<T> = Result<T, u8>;

/// The marker's answer: the numbers are the paper's.
#[derive(Clone, Copy, Debug, PartialEq, Eq)]
pub struct Verdict {
    pub number: u8,
    pub grower: usize,
    pub pilot: usize,
    pub deal: Deal,
    pub count: usize,
}

/// Numbers from here on are refusals, in operations that answer a count.
const REFUSED: u32 = 65536;

// A slice crosses as a pointer to its first element and its length.
#[link(name = "exchange_c", kind = "static")]
unsafe extern "C" {
    fn exchange_unpack(ticket: *const u8, bytes: usize, list: *mut u16, places: usize) -> u32;
    fn exchange_pack(list: *const u16, places: usize, ticket: *mut u8, bytes: usize) -> u32;
    fn exchange_settle(ticket: *const u8, bytes: usize, settlement: *mut u8, room: usize) -> u32;
    fn exchange_sheet(ticket: *const u8, bytes: usize, text: *mut u8, room: usize) -> u32;
    fn exchange_account(
        ticket: *const u8,
        bytes: usize,
        settlement: *const u8,
        length: usize,
        list: *mut u32,
        places: usize,
    ) -> u32;
    fn exchange_open(ticket: *const u8, bytes: usize, market: *mut u16, places: usize) -> u32;
    fn exchange_call(market: *mut u16, places: usize, calls: *const u16, numbers: usize) -> u32;
    fn exchange_market_settlement(
        market: *const u16,
        places: usize,
        settlement: *mut u8,
        room: usize,
    ) -> u32;
    fn exchange_windows(
        ticket: *const u8,
        bytes: usize,
        windows: *const u16,
        numbers: usize,
        new_ticket: *mut u8,
        room: usize,
    ) -> u32;
    fn exchange_read_settlement(
        settlement: *const u8,
        bytes: usize,
        growers: usize,
        pilots: usize,
        list: *mut u16,
        places: usize,
    ) -> u32;
    fn exchange_write_settlement(
        list: *const u16,
        places: usize,
        growers: usize,
        pilots: usize,
        settlement: *mut u8,
        room: usize,
    ) -> u32;
    fn exchange_text(what: u32, number: u32, text: *mut u8, room: usize) -> u32;
    fn exchange_mark(ticket: *const u8, bytes: usize, settlement: *const u8, length: usize) -> u64;
    fn exchange_worth(ticket: *const u8, bytes: usize, settlement: *const u8, length: usize)
    -> u64;
}

pub fn unpack(ticket: &[u8], list: &mut [u16]) -> Answer<usize> {
    // SAFETY: pointers and lengths are those of slices that are lent for the call; here and below.
    let number =
        unsafe { exchange_unpack(ticket.as_ptr(), ticket.len(), list.as_mut_ptr(), list.len()) };
    count_or_refusal(number)
}

pub fn pack(list: &[u16], ticket: &mut [u8]) -> Answer<usize> {
    // SAFETY: as above.
    let number =
        unsafe { exchange_pack(list.as_ptr(), list.len(), ticket.as_mut_ptr(), ticket.len()) };
    count_or_refusal(number)
}

pub fn settle(ticket: &[u8], settlement: &mut [u8]) -> Answer<usize> {
    let room = settlement.len();
    // SAFETY: as above.
    let number =
        unsafe { exchange_settle(ticket.as_ptr(), ticket.len(), settlement.as_mut_ptr(), room) };
    count_or_refusal(number)
}

pub fn sheet(ticket: &[u8], text: &mut [u8]) -> Answer<usize> {
    // SAFETY: as above.
    let number =
        unsafe { exchange_sheet(ticket.as_ptr(), ticket.len(), text.as_mut_ptr(), text.len()) };
    count_or_refusal(number)
}

pub fn mark(ticket: &[u8], settlement: &[u8]) -> Answer<Verdict> {
    let length = settlement.len();
    // SAFETY: as above.
    let number =
        unsafe { exchange_mark(ticket.as_ptr(), ticket.len(), settlement.as_ptr(), length) };
    verdict_or_refusal(number)
}

/// The worth that is given with the verdict.
pub fn worth(ticket: &[u8], settlement: &[u8]) -> Answer<u64> {
    let length = settlement.len();
    // SAFETY: as above.
    let number =
        unsafe { exchange_worth(ticket.as_ptr(), ticket.len(), settlement.as_ptr(), length) };
    worth_or_refusal(number)
}

pub fn account(ticket: &[u8], settlement: &[u8], list: &mut [u32]) -> Answer<usize> {
    // SAFETY: as above.
    let number = unsafe {
        exchange_account(
            ticket.as_ptr(),
            ticket.len(),
            settlement.as_ptr(),
            settlement.len(),
            list.as_mut_ptr(),
            list.len(),
        )
    };
    count_or_refusal(number)
}

/// Opens a market: writes its ticket's numbers, those of a sound settlement, and everybody's free hours, in
/// `plain::open_market::MARKET_NUMBERS` places.
pub fn open(ticket: &[u8], market: &mut [u16]) -> Answer<usize> {
    let places = market.len();
    // SAFETY: as above.
    let number =
        unsafe { exchange_open(ticket.as_ptr(), ticket.len(), market.as_mut_ptr(), places) };
    count_or_refusal(number)
}

/// Makes calls on an open market, each in turn. A refusal is the first; calls after it are made all the same.
pub fn call(market: &mut [u16], calls: &[u16]) -> Answer<()> {
    let places = market.len();
    // SAFETY: as above.
    let number = unsafe { exchange_call(market.as_mut_ptr(), places, calls.as_ptr(), calls.len()) };
    count_or_refusal(number).map(|count| assert_eq!(count, MARKET_NUMBERS))
}

/// The file of the settlement that an open market holds.
pub fn market_settlement(market: &[u16], settlement: &mut [u8]) -> Answer<usize> {
    let room = settlement.len();
    // SAFETY: as above.
    let number = unsafe {
        exchange_market_settlement(market.as_ptr(), market.len(), settlement.as_mut_ptr(), room)
    };
    count_or_refusal(number)
}

/// The new ticket that weekly windows make of a ticket.
pub fn windows(ticket: &[u8], windows: &[u16], new_ticket: &mut [u8]) -> Answer<usize> {
    // SAFETY: as above.
    let number = unsafe {
        exchange_windows(
            ticket.as_ptr(),
            ticket.len(),
            windows.as_ptr(),
            windows.len(),
            new_ticket.as_mut_ptr(),
            new_ticket.len(),
        )
    };
    count_or_refusal(number)
}

pub fn read_settlement(
    settlement: &[u8],
    growers: usize,
    pilots: usize,
    list: &mut [u16],
) -> Answer<usize> {
    // SAFETY: as above.
    let number = unsafe {
        exchange_read_settlement(
            settlement.as_ptr(),
            settlement.len(),
            growers,
            pilots,
            list.as_mut_ptr(),
            list.len(),
        )
    };
    count_or_refusal(number)
}

pub fn write_settlement(
    list: &[u16],
    growers: usize,
    pilots: usize,
    settlement: &mut [u8],
) -> Answer<usize> {
    // SAFETY: as above.
    let number = unsafe {
        exchange_write_settlement(
            list.as_ptr(),
            list.len(),
            growers,
            pilots,
            settlement.as_mut_ptr(),
            settlement.len(),
        )
    };
    count_or_refusal(number)
}

/// The words of a refusal.
pub fn refusal_text(number: u32, text: &mut [u8]) -> Answer<usize> {
    // SAFETY: as above.
    count_or_refusal(unsafe { exchange_text(0, number, text.as_mut_ptr(), text.len()) })
}

fn count_or_refusal(number: u32) -> Answer<usize> {
    if number < REFUSED {
        Ok(number as usize)
    } else {
        Err((number - REFUSED) as u8)
    }
}

/// A refusal in the top byte; else verdict, grower, pilot and deal in a byte each, and the count above them.
fn verdict_or_refusal(number: u64) -> Answer<Verdict> {
    let [verdict, grower, pilot, deal, .., refusal] = number.to_le_bytes();
    if refusal != 0 {
        return Err(refusal);
    }
    Ok(Verdict {
        number: verdict,
        grower: usize::from(grower),
        pilot: usize::from(pilot),
        deal: Deal::BOTH[usize::from(deal)],
        count: (number >> 32) as usize,
    })
}

/// A refusal in the top byte; else the number is the worth.
fn worth_or_refusal(number: u64) -> Answer<u64> {
    match (number >> 56) as u8 {
        0 => Ok(number),
        refusal => Err(refusal),
    }
}
