//! Rows of numbers: each loop does the same at all sixteen places, so that it becomes vector code.

use std::array::from_fn;

use super::squares::Row;

/// All ones: more than any amount, time or count, or a mark.
pub(super) const ALL: u16 = u16::MAX;

/// All numbers together, by an operation that may take them in any order: in halves, which becomes better vector code than
/// one after another.
pub(super) fn all_together(row: &Row, operation: impl Fn(u16, u16) -> u16) -> u16 {
    let eight: [u16; 8] = from_fn(|place| operation(row[place], row[place + 8]));
    let four: [u16; 4] = from_fn(|place| operation(eight[place], eight[place + 4]));
    operation(operation(four[0], four[2]), operation(four[1], four[3]))
}

pub(super) fn least(row: &Row) -> u16 {
    all_together(row, u16::min)
}

pub(super) fn greatest(row: &Row) -> u16 {
    all_together(row, u16::max)
}

pub(super) fn is_zero(row: &Row) -> bool {
    all_together(row, |one, other| one | other) == 0
}

/// What is left of each number without the other: 0 where that is greater.
pub(super) fn differences(one: &Row, other: &Row) -> Row {
    from_fn(|place| one[place].saturating_sub(other[place]))
}

/// Sums up to all ones.
pub(super) fn sums(one: &Row, other: &Row) -> Row {
    from_fn(|place| one[place].saturating_add(other[place]))
}

/// The numbers where the test is not 0, and 0 else.
pub(super) fn where_any(test: &Row, row: &Row) -> Row {
    from_fn(|place| if test[place] == 0 { 0 } else { row[place] })
}
