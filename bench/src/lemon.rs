//! LEMON's network simplex, a solver of flows of least cost that settling is compared with (Dezső, Jüttner and Kovács, *LEMON:
//! an open source C++ graph template library*, 2011). It is there if its headers were found when this was built.

use crate::plain::squares::TicketSquares;

/// With what flow the solver begins. It takes more time with the one or the other, and finds the same.
#[derive(Clone, Copy, Debug, PartialEq, Eq)]
pub enum Begin {
    Empty,
    /// Everybody's hours flow.
    Full,
}

impl Begin {
    pub const BOTH: [Begin; 2] = [Begin::Empty, Begin::Full];
}

#[cfg(lemon)]
unsafe extern "C" {
    fn lemon_best_total(
        full: bool,
        growers: usize,
        pilots: usize,
        grower_hours: *const u16,
        pilot_hours: *const u16,
        free_cap: *const u16,
        joint_gain: *const u16,
    ) -> i64;
}

/// The greatest total that the free deals of a ticket can gain, or nothing where LEMON is not there.
#[cfg(lemon)]
pub fn best_total(ticket: &TicketSquares, begin: Begin) -> Option<u64> {
    // SAFETY: the pointers are to rows of 16 numbers and to squares of 16 rows, of which the first growers and pilots are read.
    let total = unsafe {
        lemon_best_total(
            begin == Begin::Full,
            ticket.growers,
            ticket.pilots,
            ticket.grower_hours.as_ptr(),
            ticket.pilot_hours.as_ptr(),
            ticket.free_cap.as_flattened().as_ptr(),
            ticket.joint_gain.as_flattened().as_ptr(),
        )
    };
    Some(u64::try_from(total).expect("there is always a flow"))
}

#[cfg(not(lemon))]
pub fn best_total(_: &TicketSquares, _: Begin) -> Option<u64> {
    None
}
