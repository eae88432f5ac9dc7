//! A record's name (01, "Calls"): a part of the names.

use crate::record::{Record, SIZE};
use std::ops::Range;

/// T of the record at any index, whatever its kind; empty if no whole record stands there or T ends beyond the names.
pub fn name<'n>(records: &[u8], names: &'n [u8], index: u64) -> &'n [u8] {
    let text = usize::try_from(index).ok().and_then(|index| records.as_chunks::<SIZE>().0.get(index));
    text.map(Record::from_bytes).and_then(span).and_then(|span| names.get(span)).unwrap_or_default()
}

/// Where T lies, if a buffer of this machine can reach so far: the sum of two numbers of 32 bits has up to 33.
fn span(record: Record) -> Option<Range<usize>> {
    let (start, end) = (u64::from(record.a), u64::from(record.a) + u64::from(record.b));
    Some(usize::try_from(start).ok()?..usize::try_from(end).ok()?)
}

#[cfg(test)]
mod tests {
    use super::*;
    use crate::tree::{all, rec};

    const NAMES: &[u8] = b"abcdef";

    /// The name of a record alone.
    fn alone(a: u32, b: u32) -> &'static [u8] {
        name(&rec(1, 0, 0, a, b), NAMES, 0)
    }

    #[test]
    fn a_name_is_a_part_of_the_names() {
        assert_eq!(alone(1, 3), b"bcd");
        assert_eq!(alone(0, 6), NAMES);
        assert_eq!(alone(6, 0), b"");
    }

    #[test]
    fn a_name_that_ends_beyond_the_names_is_empty() {
        for (a, b) in [(0, 7), (1, 6), (6, 1), (7, 0), (u32::MAX, 2), (2, u32::MAX), (u32::MAX, u32::MAX)] {
            assert_eq!(alone(a, b), b"", "{a} {b}");
        }
    }

    #[test]
    fn any_kind_has_a_name_where_a_whole_record_stands() {
        let records = all(&[&rec(1, 0, 0, 0, 1), &rec(255, 255, u16::MAX, 2, 2)]);
        assert_eq!(name(&records, NAMES, 1), b"cd");
        assert_eq!(name(&records[..23], NAMES, 1), b"");
        for index in [2, 1 << 32, 1 << 62, u64::MAX] {
            assert_eq!(name(&records, NAMES, index), b"", "{index}");
        }
    }
}
