//! Refusals (01, "Calls"): a number and a place.

use std::fmt;

/// Why there is no answer. The numbers are those of documents 01 and 02. 13 needs a room, which the oracle has not; 14 comes with
/// directives (02, #101), which it does not read.
#[derive(Clone, Copy, Debug, PartialEq, Eq, PartialOrd, Ord)]
pub enum Reason {
    /// Settings neither 21 nor 22 bytes, or a byte out of range.
    Settings = 1,
    /// Records empty, not whole, or above 4,096.
    Records = 2,
    /// Names above 32,768 bytes.
    Names = 3,
    /// A record is expected, none is left.
    NoneLeft = 4,
    /// Kind not allowed there.
    Kind = 5,
    /// Depth above 200.
    Depth = 6,
    /// Variant out of range.
    Variant = 7,
    /// Count 0 where at least 1 is asked.
    CountOfNone = 8,
    /// An unused count, a or b isn't 0.
    Unused = 9,
    /// The text ends beyond the names.
    BeyondNames = 10,
    /// The text has the wrong form.
    Form = 11,
    /// Records left over.
    LeftOver = 12,
    /// A reserved name declared: at one record directly behind [`Self::Form`], so before [`Self::LeftOver`].
    Declared = 15,
}

/// The numbers of all refusals that a call can give.
pub const NUMBERS: [u8; 14] = [1, 2, 3, 4, 5, 6, 7, 8, 9, 10, 11, 12, 13, 15];

/// A reason and its place.
#[derive(Clone, Copy, Debug, PartialEq, Eq)]
pub struct Refusal {
    /// Why.
    pub reason: Reason,
    /// Where: 0 for the whole input, else a record's index or the record count.
    pub place: usize,
}

impl Refusal {
    /// A refusal of the whole input.
    pub fn whole(reason: Reason) -> Self {
        Self { reason, place: 0 }
    }

    /// A refusal at a record.
    pub fn at(reason: Reason, place: usize) -> Self {
        Self { reason, place }
    }

    /// The number of the reason.
    pub fn number(&self) -> u8 {
        self.reason as u8
    }
}

impl fmt::Display for Refusal {
    fn fmt(&self, f: &mut fmt::Formatter<'_>) -> fmt::Result {
        write!(f, "refused {} at {}", self.number(), self.place)
    }
}
