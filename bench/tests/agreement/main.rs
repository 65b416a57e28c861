//! The proved exchange and the plain one give the same answers and leave the same buffers, on inputs drawn from fixed
//! seeds. Each test writes what it compared, also where tests are captured.

mod account;
mod buffers;
mod free_hours;
mod guess;
mod mark;
mod new_tickets;
mod old_caps;
mod open_market;
mod pack;
mod paper;
mod settle;
mod settlements;
mod sheet;
mod tally;
mod unpack;
mod windows;
mod worth;
