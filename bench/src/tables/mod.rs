//! The tables of the benchmark, in Markdown.

pub mod calls;
pub mod free_hours;
pub mod operations;
pub mod settling;

use std::time::Duration;

use crate::timing::medians;

/// Sizes of buffers that always suffice.
const ACCOUNT_NUMBERS: usize = 48;
pub const SETTLEMENT_BYTES: usize = 1027;
const TICKET_BYTES: usize = 2083;
const TICKET_NUMBERS: usize = 1315;
const SHEET_BYTES: usize = 8216;

pub struct Table {
    rows: Vec<Vec<String>>,
}

impl Table {
    pub fn new(header: &[&str]) -> Table {
        Table {
            rows: vec![header.iter().map(|word| word.to_string()).collect()],
        }
    }

    pub fn push(&mut self, name: &str, cells: Vec<String>) {
        let mut row = vec![name.to_string()];
        row.extend(cells);
        self.rows.push(row);
    }

    /// The first column to the left, numbers to the right.
    pub fn print(&self) {
        let (header, rows) = self.rows.split_first().expect("a table has a header");
        print_row(header);
        let rules = (0..header.len()).map(|column| if column == 0 { "---" } else { "---:" });
        println!("|{}|", rules.collect::<Vec<_>>().join("|"));
        rows.iter().for_each(|row| print_row(row));
    }
}

fn print_row(row: &[String]) {
    println!("| {} |", row.join(" | "));
}

/// A time in nanoseconds, microseconds or milliseconds.
pub fn time(duration: Duration) -> String {
    time_of_each(duration, 1)
}

/// The time of each of so many, which may be a part of a nanosecond.
pub fn time_of_each(all: Duration, count: u32) -> String {
    let micros = all.as_secs_f64() * 1e6 / f64::from(count);
    match micros {
        ..0.00995 => format!("{:.2} ns", micros * 1e3),
        ..0.0995 => format!("{:.0} ns", micros * 1e3),
        ..9.95 => format!("{micros:.2} µs"),
        ..999.5 => format!("{micros:.0} µs"),
        ..9995.0 => format!("{:.2} ms", micros / 1e3),
        _ => format!("{:.0} ms", micros / 1e3),
    }
}

pub fn ratio(one: Duration, other: Duration) -> String {
    format!("{:.2}", one.as_secs_f64() / other.as_secs_f64())
}

/// The times of one call of each function in the mean over these inputs, none of which may be refused.
fn mean_times<T, const N: usize>(
    inputs: &[T],
    mut functions: [&mut dyn FnMut(&T) -> bool; N],
) -> [Duration; N] {
    let mut over_all = functions
        .each_mut()
        .map(|function| || assert!(inputs.iter().all(&mut **function)));
    medians(
        over_all
            .each_mut()
            .map(|function| function as &mut dyn FnMut()),
    )
    .map(|time| time / inputs.len() as u32)
}
