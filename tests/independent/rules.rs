//! What a rule of the table of refusal numbers is made of (document 01, and document 02, C-19).

use super::fields::Field;
use std::ops::{RangeFrom, RangeInclusive};

/// The rows of document 01's table of refusal numbers, but for row 0.
#[derive(Clone, Copy, Debug, PartialEq, Eq)]
pub enum Row {
    Cut = 1,
    Marker = 2,
    Value = 3,
    NotBuilt = 4,
    Buffer = 5,
    Length = 6,
    Count = 7,
    Mode = 8,
}

/// The numbers that keep a rule. Where there is no most, any number from the least on does.
#[derive(Clone, Copy, Debug, PartialEq, Eq)]
pub struct Expected {
    pub least: usize,
    pub most: Option<usize>,
}

impl From<usize> for Expected {
    fn from(only: usize) -> Expected {
        Expected { least: only, most: Some(only) }
    }
}

impl From<RangeInclusive<usize>> for Expected {
    fn from(range: RangeInclusive<usize>) -> Expected {
        Expected { least: *range.start(), most: Some(*range.end()) }
    }
}

impl From<RangeFrom<usize>> for Expected {
    fn from(range: RangeFrom<usize>) -> Expected {
        Expected { least: range.start, most: None }
    }
}

/// The first rule that a stream breaks: its row, the offset of the byte that holds the first bit of the field concerned, the field,
/// what was found there and what keeps the rule. In rows 1 and 5 that is what is left or lent, and what is needed.
#[derive(Clone, Copy, Debug, PartialEq, Eq)]
pub struct Refusal {
    pub row: Row,
    pub place: usize,
    pub field: Field,
    pub found: usize,
    pub expected: Expected,
}

/// A rule: refuses unless what is found is as expected.
#[inline]
pub(crate) fn require(
    row: Row,
    place: usize,
    field: Field,
    found: usize,
    expected: impl Into<Expected>,
) -> Result<(), Refusal> {
    let expected = expected.into();
    if expected.least <= found && expected.most.map_or(true, |most| found <= most) {
        Ok(())
    } else {
        Err(Refusal { row, place, field, found, expected })
    }
}

#[cfg(test)]
mod tests {
    use super::*;

    #[test]
    fn rules_hold_up_to_their_bounds() {
        let holds = |found, expected: Expected| require(Row::Value, 0, Field::Q, found, expected).is_ok();
        assert_eq!([4, 5, 7, 8].map(|found| holds(found, (5..=7).into())), [false, true, true, false]);
        assert_eq!([4, 5, 6].map(|found| holds(found, 5.into())), [false, true, false]);
        assert_eq!([4, 5, usize::MAX].map(|found| holds(found, (5..).into())), [false, true, true]);
    }
}
