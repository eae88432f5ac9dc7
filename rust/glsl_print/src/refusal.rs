//! Refusals: why there is no text or answer, and where.

use std::error::Error;
use std::fmt;

/// Why there is no answer: the first refusal in this order: 1, 2, 3; at each record 4 to 11 and then 15, so that the first faulty
/// record decides; 12; 13. The numbers are those of documents 01 and 02, and more will come. `Ord` goes by number, which is not quite that
/// order.
#[derive(Clone, Copy, Debug, PartialEq, Eq, PartialOrd, Ord, Hash)]
#[non_exhaustive]
pub enum Refusal {
    /// Settings neither 21 nor 22 bytes, or a byte out of range. The place is 0.
    SettingsOutOfRange = 1,
    /// Records empty, not whole, or above 4,096. The place is 0.
    RecordsOutOfSize = 2,
    /// Names above 32,768 bytes. The place is 0.
    NamesOutOfSize = 3,
    /// A record is expected, none is left. The place is the number of records.
    RecordMissing = 4,
    /// Kind not allowed there. The place is the record.
    KindNotAllowed = 5,
    /// Depth above 200, where the root has depth 1. The place is the record.
    TooDeep = 6,
    /// Variant out of range. The place is the record.
    VariantOutOfRange = 7,
    /// Count 0 where at least 1 is asked for. The place is the record.
    CountMissing = 8,
    /// An unused count, a or b is not 0. The place is the record.
    UnusedSet = 9,
    /// A record's text ends beyond the names. The place is the record.
    TextBeyond = 10,
    /// A record's text has the wrong form. The place is the record.
    TextMisformed = 11,
    /// Records left over. The place is the first of them.
    RecordsLeftOver = 12,
    /// The text is longer than the room. The place is the length needed.
    RoomTooSmall = 13,
    /// A name that GLSL keeps for itself (it begins with `gl_`) is declared, as a function's, a struct's or a parameter's. The place
    /// is the record.
    ReservedDeclared = 15,
}

impl Refusal {
    /// All of them, by number. The numbers have gaps.
    pub const ALL: &'static [Self] = &[
        Self::SettingsOutOfRange,
        Self::RecordsOutOfSize,
        Self::NamesOutOfSize,
        Self::RecordMissing,
        Self::KindNotAllowed,
        Self::TooDeep,
        Self::VariantOutOfRange,
        Self::CountMissing,
        Self::UnusedSet,
        Self::TextBeyond,
        Self::TextMisformed,
        Self::RecordsLeftOver,
        Self::RoomTooSmall,
        Self::ReservedDeclared,
    ];

    /// The documents' number.
    pub const fn number(self) -> u8 {
        self as u8
    }
}

impl fmt::Display for Refusal {
    fn fmt(&self, f: &mut fmt::Formatter<'_>) -> fmt::Result {
        f.write_str(match self {
            Self::SettingsOutOfRange => "settings neither 21 nor 22 bytes, or a byte out of range",
            Self::RecordsOutOfSize => "records empty, not whole, or above 4,096",
            Self::NamesOutOfSize => "names above 32,768 bytes",
            Self::RecordMissing => "a record is expected, none is left",
            Self::KindNotAllowed => "kind not allowed there",
            Self::TooDeep => "depth above 200",
            Self::VariantOutOfRange => "variant out of range",
            Self::CountMissing => "count 0 where at least 1 is asked for",
            Self::UnusedSet => "an unused count, a or b isn't 0",
            Self::TextBeyond => "a text ends beyond the names",
            Self::TextMisformed => "a text has the wrong form",
            Self::RecordsLeftOver => "records left over",
            Self::RoomTooSmall => "the text is longer than the room",
            Self::ReservedDeclared => "a reserved name (gl_..) declared",
        })
    }
}

/// A refusal and its place.
#[derive(Clone, Copy, Debug, PartialEq, Eq, Hash)]
pub struct Refused {
    /// Why.
    pub refusal: Refusal,
    /// Where: a record's index, from 0, or what the refusal says in its place.
    pub place: usize,
}

impl fmt::Display for Refused {
    fn fmt(&self, f: &mut fmt::Formatter<'_>) -> fmt::Result {
        write!(f, "refused {} at {}: {}", self.refusal.number(), self.place, self.refusal)
    }
}

impl Error for Refused {}

/// What 64 bits say: a length or truth value, or a refusal.
///
/// # Panics
///
/// If they are no answer of the calls: their contracts leave only these.
pub(crate) fn value(answer: i64) -> Result<usize, Refused> {
    let bits = answer.unsigned_abs();
    // Both halves have 32 bits, and a `usize` has no fewer where the library can be linked.
    let [number, place] = [bits >> 32, bits & u64::from(u32::MAX)].map(|half| half as usize);
    if answer >= 0 {
        assert!(number == 0, "{answer} is no length: a text has less than 2^32 bytes");
        return Ok(place);
    }
    let refusal = Refusal::ALL.iter().find(|refusal| usize::from(refusal.number()) == number);
    let refusal = *refusal.unwrap_or_else(|| panic!("{answer} is no refusal: none has the number {number}"));
    Err(Refused { refusal, place })
}

#[cfg(test)]
mod tests {
    use super::*;

    #[test]
    fn numbers_are_in_order() {
        let numbers: Vec<u8> = Refusal::ALL.iter().map(|refusal| refusal.number()).collect();
        assert_eq!(numbers, [1, 2, 3, 4, 5, 6, 7, 8, 9, 10, 11, 12, 13, 15]);
    }

    #[test]
    fn bits_are_taken_apart() {
        assert_eq!([0, 1, 4_294_967_295].map(value), [0, 1, 4_294_967_295].map(Ok));
        for &refusal in Refusal::ALL {
            for place in [0, 7, 4_294_967_295] {
                let bits = -((i64::from(refusal.number()) << 32) + place as i64);
                assert_eq!(value(bits), Err(Refused { refusal, place }));
            }
        }
    }

    #[test]
    fn other_bits_are_no_answer() {
        for bits in [1 << 32, i64::MAX, -1, -(14 << 32), -(16 << 32), i64::MIN] {
            assert!(std::panic::catch_unwind(|| value(bits)).is_err(), "{bits}");
        }
    }

    #[test]
    fn a_refusal_is_told_in_words() {
        let refused = Refused { refusal: Refusal::KindNotAllowed, place: 2 };
        assert_eq!(refused.to_string(), "refused 5 at 2: kind not allowed there");
    }
}
