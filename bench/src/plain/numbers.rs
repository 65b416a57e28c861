//! Numbers in groups of seven bits, low group first, in one or two bytes and in the shortest form.

/// Where the numbers of a file come from.
pub trait Source {
    fn next_number(&mut self) -> Result<u16, Ill>;
    fn is_finished(&self) -> bool;
}

/// What can be wrong with a number before its value is looked at.
#[derive(Clone, Copy, Debug, PartialEq, Eq)]
pub enum Ill {
    EndsEarly,
    SecondByteHasTopBit,
    SecondByteIsZero,
}

/// Numbers written as bytes.
pub struct Bytes<'a>(pub &'a [u8]);

impl Source for Bytes<'_> {
    fn next_number(&mut self) -> Result<u16, Ill> {
        match *self.0 {
            [first @ ..0x80, ref rest @ ..] => {
                self.0 = rest;
                Ok(u16::from(first))
            }
            _ => self.next_of_two_bytes(),
        }
    }

    fn is_finished(&self) -> bool {
        self.0.is_empty()
    }
}

impl Bytes<'_> {
    fn next_of_two_bytes(&mut self) -> Result<u16, Ill> {
        match *self.0 {
            [] | [_] => Err(Ill::EndsEarly),
            [_, 0x80..=0xff, ..] => Err(Ill::SecondByteHasTopBit),
            [_, 0, ..] => Err(Ill::SecondByteIsZero),
            [first, second, ref rest @ ..] => {
                self.0 = rest;
                Ok(u16::from(first & 0x7f) | u16::from(second) << 7)
            }
        }
    }
}

/// Numbers in a list.
pub struct List<'a>(pub &'a [u16]);

impl Source for List<'_> {
    fn next_number(&mut self) -> Result<u16, Ill> {
        let (&number, rest) = self.0.split_first().ok_or(Ill::EndsEarly)?;
        self.0 = rest;
        Ok(number)
    }

    fn is_finished(&self) -> bool {
        self.0.is_empty()
    }
}

/// Writes a number below 2 to the 14th.
pub fn write_number(number: u16, bytes: &mut Vec<u8>) {
    debug_assert!(number < 1 << 14);
    if number < 0x80 {
        bytes.push(number as u8);
    } else {
        bytes.extend([number as u8 | 0x80, (number >> 7) as u8]);
    }
}

pub fn write_numbers(numbers: &[u16]) -> Vec<u8> {
    let mut bytes = Vec::with_capacity(2 * numbers.len());
    for &number in numbers {
        write_number(number, &mut bytes);
    }
    bytes
}
