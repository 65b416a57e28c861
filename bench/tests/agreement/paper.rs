//! The paper's own cases, on both.

use exchange_bench::plain::Deal::{self, Free, Tariff};
use exchange_bench::plain::mark::mark;
use exchange_bench::plain::sheet::sheet;
use exchange_bench::plain::ticket::unpack;
use exchange_bench::proved;

use crate::buffers::same_answer;
use crate::mark::{as_proved, worth_of};

const A: &[u8] = &[1, 1, 1, 3, 2, 1, 4, 3, 0, 0];
const B: &[u8] = &[1, 1, 2, 1, 1, 1, 0, 0, 0, 1, 10, 0, 0, 0, 1, 7];
const C: &[u8] = &[1, 1, 1, 1, 1, 1, 5, 5, 1, 12];
const D: &[u8] = &[1, 1, 1, 1, 2, 0, 0, 0, 2, 10];

/// Ticket, settlement, verdict, grower, pilot, deal, count, worth.
type Row = (
    &'static [u8],
    &'static [u8],
    u8,
    usize,
    usize,
    Deal,
    usize,
    u64,
);

const SITTINGS: [Row; 10] = [
    (A, &[2, 1, 1, 1, 0, 0], 1, 0, 0, Tariff, 2, 0),
    (A, &[2, 1, 1, 0, 0, 0], 7, 0, 0, Tariff, 1, 0),
    (A, &[2, 1, 1, 2, 0, 0], 2, 0, 0, Tariff, 0, 0),
    (A, &[2, 1, 1, 1, 0, 5], 4, 0, 0, Free, 0, 0),
    (B, &[2, 1, 2, 0, 1, 3, 0, 0, 0], 1, 0, 0, Tariff, 4, 10),
    (B, &[2, 1, 2, 0, 1, 4, 0, 0, 0], 8, 0, 1, Free, 4, 0),
    (B, &[2, 1, 2, 0, 0, 0, 0, 1, 0], 8, 0, 0, Free, 2, 0),
    (C, &[2, 1, 1, 1, 0, 0], 8, 0, 0, Free, 2, 0),
    (C, &[2, 1, 1, 0, 1, 12], 1, 0, 0, Tariff, 2, 0),
    (D, &[2, 1, 1, 0, 1, 5], 1, 0, 0, Tariff, 2, 10),
];

#[test]
fn marked_sittings() {
    for (ticket, settlement, number, grower, pilot, deal, count, worth) in SITTINGS {
        let expected = proved::Verdict {
            number,
            grower,
            pilot,
            deal,
            count,
        };
        let plain = mark(ticket, settlement);
        assert_eq!(as_proved(plain), Ok(expected));
        assert_eq!(proved::mark(ticket, settlement), Ok(expected));
        assert_eq!(worth_of(plain), Ok(worth));
        assert_eq!(proved::worth(ticket, settlement), Ok(worth));
    }
}

#[test]
fn refused_files() {
    let files: [(&[u8], u8); 11] = [
        (&[], 1),
        (&[0x80, 0x80], 2),
        (&[0x81, 0x00], 3),
        (&[1, 0], 5),
        (&[1, 17], 5),
        (&[1, 1, 1, 0x3d], 6),
        (&[1, 1, 1, 1, 1, 1, 0xf5, 0x03], 7),
        // of the request 2026-02: at the tariff cap and at the free one, after 7 and before anything later
        (&[1, 1, 1, 0, 2, 1, 0xf5, 0x03], 18),
        (&[1, 1, 1, 3, 0, 0, 0, 0, 1], 18),
        (&[1, 1, 1, 0, 0, 0x3d], 7),
        (&[1, 1, 1, 0, 2, 0, 1, 0, 1], 8),
    ];
    for (file, refusal) in files {
        assert_eq!(unpacked(file), Err(refusal));
    }
}

#[test]
fn greatest_numbers_pass() {
    assert_eq!(unpacked(&[1, 1, 1, 0x3c, 0x3c, 0, 0, 0, 0, 0]), Ok(10));
    assert_eq!(unpacked(&[1, 1, 1, 1, 1, 1, 0xf4, 3, 0, 0, 0]), Ok(10));
}

fn unpacked(file: &[u8]) -> Result<usize, u8> {
    same_answer(
        1315,
        |list| proved::unpack(file, list),
        |list| unpack(file, list),
    )
}

#[test]
fn the_sheet_of_a() {
    let expected = b"SHEET 1 1\n0 0 1 4 3 0 0 0\nSOUND 2\n";
    let mut text = [0; 56];
    assert_eq!(sheet(A, &mut text), Ok(34));
    assert_eq!(&text[..34], expected);
    text = [0; 56];
    assert_eq!(proved::sheet(A, &mut text), Ok(34));
    assert_eq!(&text[..34], expected);
}
