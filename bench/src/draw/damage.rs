//! Damaged files and lists: near misses, and random ones.

use super::generator::Generator;
use super::old_caps::{Beside, with_old_cap};
use crate::plain::numbers::write_number;
use crate::plain::ticket::Ticket;

/// What was done to a good input.
#[derive(Clone, Copy, Debug, PartialEq, Eq)]
pub enum Damage {
    None,
    NumberChanged,
    ByteChanged,
    LongForm,
    Cut,
    Extended,
    Removed,
    RandomShort,
    RandomLong,
    /// Of a ticket only.
    OldCap(Beside),
}

impl Damage {
    pub fn name(self) -> &'static str {
        match self {
            Damage::None => "whole",
            Damage::NumberChanged => "one number changed",
            Damage::ByteChanged => "one byte changed",
            Damage::LongForm => "one number in a longer form",
            Damage::Cut => "cut",
            Damage::Extended => "extended",
            Damage::Removed => "one left out",
            Damage::RandomShort => "random, short",
            Damage::RandomLong => "random, long",
            Damage::OldCap(Beside::Nothing) => "cap without hours",
            Damage::OldCap(Beside::CapAboveLimit) => "cap without hours, above its limit",
            Damage::OldCap(Beside::LaterFault) => "cap without hours before another fault",
            Damage::OldCap(Beside::EarlierFault) => "cap without hours after another fault",
        }
    }
}

const OF_FILES: [Damage; 8] = [
    Damage::None,
    Damage::NumberChanged,
    Damage::NumberChanged,
    Damage::ByteChanged,
    Damage::LongForm,
    Damage::Cut,
    Damage::Extended,
    Damage::Removed,
];

const OF_LISTS: [Damage; 6] = [
    Damage::None,
    Damage::NumberChanged,
    Damage::NumberChanged,
    Damage::Cut,
    Damage::Extended,
    Damage::Removed,
];

/// A ticket's file, whole or damaged; once in eight with an old cap.
pub fn damaged_ticket_file(generator: &mut Generator, ticket: &Ticket) -> (Damage, Vec<u8>) {
    if generator.once_in(8) {
        let (damage, numbers) = with_any_old_cap(generator, ticket);
        return (damage, write(&numbers));
    }
    damaged_file(generator, &ticket.numbers())
}

/// A ticket's numbers, in the same way.
pub fn damaged_ticket_list(generator: &mut Generator, ticket: &Ticket) -> (Damage, Vec<u16>) {
    if generator.once_in(8) {
        return with_any_old_cap(generator, ticket);
    }
    damaged_list(generator, &ticket.numbers())
}

fn with_any_old_cap(generator: &mut Generator, ticket: &Ticket) -> (Damage, Vec<u16>) {
    let beside = generator.one_of(&Beside::ALL);
    let numbers = with_old_cap(generator, ticket, beside);
    (Damage::OldCap(beside), numbers)
}

/// A file of these numbers, whole or damaged; once in ten random bytes.
pub fn damaged_file(generator: &mut Generator, numbers: &[u16]) -> (Damage, Vec<u8>) {
    if generator.once_in(10) {
        let bytes = random_bytes(generator);
        return (random_of(bytes.len()), bytes);
    }
    let damage = generator.one_of(&OF_FILES);
    (damage, file_with(generator, numbers, damage))
}

fn file_with(generator: &mut Generator, numbers: &[u16], damage: Damage) -> Vec<u8> {
    if damage == Damage::NumberChanged {
        return write(&changed(generator, numbers));
    }
    if damage == Damage::LongForm {
        return long_form(generator, numbers);
    }
    let mut bytes = write(numbers);
    let place = generator.below(bytes.len());
    match damage {
        Damage::ByteChanged => bytes[place] = generator.bits() as u8,
        Damage::Cut => bytes.truncate(place),
        Damage::Extended => extend(&mut bytes, generator, |generator| generator.bits() as u8),
        Damage::Removed => {
            bytes.remove(place);
        }
        _ => {}
    }
    bytes
}

/// These numbers, whole or damaged; once in ten random numbers.
pub fn damaged_list(generator: &mut Generator, numbers: &[u16]) -> (Damage, Vec<u16>) {
    if generator.once_in(10) {
        let list = random_list(generator);
        return (random_of(list.len()), list);
    }
    let damage = generator.one_of(&OF_LISTS);
    let mut list = numbers.to_vec();
    let place = generator.below(list.len());
    match damage {
        Damage::NumberChanged => list = changed(generator, numbers),
        Damage::Cut => list.truncate(place),
        Damage::Extended => extend(&mut list, generator, |generator| generator.bits() as u16),
        Damage::Removed => {
            list.remove(place);
        }
        _ => {}
    }
    (damage, list)
}

fn random_of(length: usize) -> Damage {
    if length < 20 {
        Damage::RandomShort
    } else {
        Damage::RandomLong
    }
}

fn extend<T>(front: &mut Vec<T>, generator: &mut Generator, more: impl Fn(&mut Generator) -> T) {
    for _ in 0..=generator.below(4) {
        front.push(more(generator));
    }
}

/// One number of a list changed, often to one just out of a range.
fn changed(generator: &mut Generator, numbers: &[u16]) -> Vec<u16> {
    let mut list = numbers.to_vec();
    let place = if generator.once_in(8) {
        generator.below(list.len().min(3))
    } else {
        generator.below(list.len())
    };
    list[place] = match generator.below(3) {
        0 => generator.one_of(&[
            0, 1, 2, 16, 17, 60, 61, 127, 128, 500, 501, 16383, 16384, 65535,
        ]),
        1 => generator.between(0, 600),
        _ => list[place].wrapping_add(generator.one_of(&[1, 65535])),
    };
    list
}

/// Numbers as bytes; of those above 16,383, which have no form in two bytes, the low bits.
fn write(numbers: &[u16]) -> Vec<u8> {
    let mut bytes = Vec::with_capacity(2 * numbers.len());
    for &number in numbers {
        write_number(number % (1 << 14), &mut bytes);
    }
    bytes
}

/// A file in which one number has a second byte of 0, or a third byte.
fn long_form(generator: &mut Generator, numbers: &[u16]) -> Vec<u8> {
    let place = generator.below(numbers.len());
    let mut bytes = write(&numbers[..place]);
    let low = numbers[place] as u8 | 0x80;
    if generator.once_in(2) {
        bytes.extend([low, 0]);
    } else {
        bytes.extend([low, (numbers[place] >> 7) as u8 | 0x80, 0]);
    }
    bytes.extend(write(&numbers[place + 1..]));
    bytes
}

/// Random bytes, of many lengths; most begin as a ticket or a settlement does.
fn random_bytes(generator: &mut Generator) -> Vec<u8> {
    let most = generator.one_of(&[4, 20, 200, 2100]);
    let length = generator.below(most);
    let end = generator.one_of(&[3, 61, 129, 256]);
    let mut bytes: Vec<u8> = (0..length).map(|_| generator.below(end) as u8).collect();
    if let (Some(first), false) = (bytes.first_mut(), generator.once_in(4)) {
        *first = generator.one_of(&[1, 2]);
    }
    bytes
}

fn random_list(generator: &mut Generator) -> Vec<u16> {
    let most = generator.one_of(&[4, 20, 200, 1400]);
    let length = generator.below(most);
    let end = generator.one_of(&[3, 61, 501, 65536]);
    let mut list: Vec<u16> = (0..length).map(|_| generator.below(end) as u16).collect();
    if let (Some(first), false) = (list.first_mut(), generator.once_in(4)) {
        *first = 1;
    }
    list
}
