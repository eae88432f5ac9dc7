//! Records of a tree (document 01, "Tree records"): twelve bytes, little-endian.

/// Bytes of a record.
pub const SIZE: usize = 12;

/// The most records that document 01 allows.
pub const MOST_RECORDS: usize = 4_096;

/// The most bytes of names that it allows.
pub const MOST_NAMES: usize = 32_768;

/// A record's fields.
#[derive(Clone, Copy, Debug, Default, PartialEq, Eq)]
pub struct Record {
    /// Which of document 01's kinds.
    pub kind: u8,
    /// Which form of the kind.
    pub variant: u8,
    /// How many children, where their number is free.
    pub count: u16,
    /// Bits of a constant, or the offset of a text in the names.
    pub a: u32,
    /// The length of a text.
    pub b: u32,
}

impl Record {
    /// Reads the fields.
    pub fn from_bytes(bytes: &[u8; SIZE]) -> Self {
        let [kind, variant, c0, c1, a0, a1, a2, a3, b0, b1, b2, b3] = *bytes;
        Self {
            kind,
            variant,
            count: u16::from_le_bytes([c0, c1]),
            a: u32::from_le_bytes([a0, a1, a2, a3]),
            b: u32::from_le_bytes([b0, b1, b2, b3]),
        }
    }

    /// Writes the fields.
    pub fn to_bytes(self) -> [u8; SIZE] {
        let ([c0, c1], [a0, a1, a2, a3], [b0, b1, b2, b3]) =
            (self.count.to_le_bytes(), self.a.to_le_bytes(), self.b.to_le_bytes());
        [self.kind, self.variant, c0, c1, a0, a1, a2, a3, b0, b1, b2, b3]
    }

    /// The text that `a` and `b` name; nothing where it ends beyond the names.
    pub fn text(self, names: &[u8]) -> Option<&[u8]> {
        let start = usize::try_from(self.a).ok()?;
        let length = usize::try_from(self.b).ok()?;
        names.get(start..start.checked_add(length)?)
    }
}

/// The whole records at the front of some bytes, and the bytes behind them.
pub fn split(bytes: &[u8]) -> (Vec<Record>, &[u8]) {
    let (whole, rest) = bytes.as_chunks::<SIZE>();
    (whole.iter().map(Record::from_bytes).collect(), rest)
}

#[cfg(test)]
mod tests {
    use super::*;

    #[test]
    fn fields_are_little_endian() {
        let bytes = [1, 2, 3, 0, 4, 0, 0, 0, 0, 0, 0, 5];
        let record = Record { kind: 1, variant: 2, count: 3, a: 4, b: 5 << 24 };
        assert_eq!(Record::from_bytes(&bytes), record);
        assert_eq!(record.to_bytes(), bytes);
    }

    #[test]
    fn a_text_beyond_the_names_is_none() {
        let text = |a, b| Record { a, b, ..Record::default() }.text(b"abc");
        assert_eq!(text(1, 2), Some(&b"bc"[..]));
        assert_eq!(text(3, 0), Some(&b""[..]));
        assert_eq!(text(1, 3), None);
        assert_eq!(text(u32::MAX, u32::MAX), None);
    }

    #[test]
    fn whole_records_and_a_rest() {
        let (records, rest) = split(&[7; 29]);
        assert_eq!((records.len(), rest), (2, &[7; 5][..]));
    }
}
