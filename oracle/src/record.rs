//! Records (01, "Tree records"): twelve bytes, and what each kind and variant holds beside its children.

/// Bytes of a record.
pub const SIZE: usize = 12;

/// A record's fields.
#[derive(Clone, Copy, Debug, Default, PartialEq, Eq)]
pub struct Record {
    /// Which of document 01's kinds.
    pub kind: u8,
    /// Which form of the kind.
    pub variant: u8,
    /// How many children, where their number is free.
    pub count: u16,
    /// Bits of a constant, or the offset of a text.
    pub a: u32,
    /// The length of a text.
    pub b: u32,
}

impl Record {
    /// Reads the little-endian fields.
    pub fn from_bytes(bytes: &[u8; SIZE]) -> Self {
        let [kind, variant, c0, c1, a0, a1, a2, a3, b0, b1, b2, b3] = *bytes;
        Self {
            kind,
            variant,
            count: u16::from_le_bytes([c0, c1]),
            a: u32::from_le_bytes([a0, a1, a2, a3]),
            b: u32::from_le_bytes([b0, b1, b2, b3]),
        }
    }

    /// Writes the little-endian fields.
    pub fn to_bytes(self) -> [u8; SIZE] {
        let ([c0, c1], [a0, a1, a2, a3], [b0, b1, b2, b3]) =
            (self.count.to_le_bytes(), self.a.to_le_bytes(), self.b.to_le_bytes());
        [self.kind, self.variant, c0, c1, a0, a1, a2, a3, b0, b1, b2, b3]
    }
}

/// What the count of a record says.
#[derive(Clone, Copy, Debug, PartialEq, Eq)]
pub enum Count {
    /// Nothing: it is 0.
    Unused,
    /// A number of children.
    Any,
    /// A number of children, at least 1.
    AtLeastOne,
}

/// What `a` and `b` of a record say.
#[derive(Clone, Copy, Debug, PartialEq, Eq)]
pub enum Payload {
    /// Nothing: both are 0.
    Unused,
    /// `a` holds 32 bits, `b` is 0.
    Bits,
    /// A text that is a name.
    Name,
    /// A text that is a float.
    Float,
}

/// What a kind and variant hold beside their children; nothing where the variant (or the kind) is not in document 01's
/// table, in which 21 goes up to 118 by 02, #102. One line of this table is one or more lines of that one.
pub fn shape(kind: u8, variant: u8) -> Option<(Count, Payload)> {
    use Count::{Any, AtLeastOne};
    use Payload::{Bits, Float, Name};
    const NO: Count = Count::Unused;
    const NONE: Payload = Payload::Unused;
    let shape = match (kind, variant) {
        (1 | 13, 0) => (NO, Name),
        (2 | 3, 0) => (NO, Bits),
        (5 | 6, 0) => (NO, Float),
        (4, 0..=1) | (7, 0..=5) | (8, 0..=18) | (10, 0..=10) => (NO, NONE),
        (9 | 11 | 14..=16, 0) => (NO, NONE),
        (12, 0) => (Any, NONE),

        (20, 0..=1) | (21, 0..=118) | (25, 0..=1) | (31, 0..=1) => (NO, NONE),
        (22, 0) | (27, 0..=1) => (NO, Name),
        (23, 0) => (Any, NONE),
        (23, 1) => (Any, Name),
        (24, 0) | (26, 0..=1) | (28, 0) => (AtLeastOne, NONE),
        (29, 17) => (Any, NONE),
        (29, 18) => (AtLeastOne, NONE),
        (29, 0..=26) => (NO, NONE),
        (30, 0..=1) => (NO, Name),
        (30, 2) => (NO, NONE),

        (40, 0) | (46, 0..=1) => (Any, Name),
        (41, 0..=3) | (44, 0..=1) => (NO, NONE),
        (42, 0) => (Any, NONE),
        (43, 1 | 3 | 5 | 7) => (NO, Name),
        (43, 0 | 2 | 4 | 6) => (NO, NONE),
        (45, 0) => (NO, NONE),
        (45, 1) => (AtLeastOne, NONE),
        (47, 4) => (NO, Name),
        (47, 0..=5) => (NO, NONE),

        (60 | 63 | 80, 0) => (Any, NONE),
        (61 | 62 | 64, 0..=1) | (65 | 66 | 81, 0) | (67, 0..=3) | (68, 0..=4) | (70, 0..=2) => (NO, NONE),
        (69, 0) => (NO, NONE),
        (69, 1) => (NO, Name),
        _ => return None,
    };
    Some(shape)
}

#[cfg(test)]
mod tests {
    use super::*;

    #[test]
    fn fields_are_little_endian() {
        let bytes = [1, 2, 3, 0, 4, 0, 0, 0, 0, 0, 0, 5];
        let record = Record { kind: 1, variant: 2, count: 3, a: 4, b: 5 << 24 };
        assert_eq!(Record::from_bytes(&bytes), record);
        assert_eq!(record.to_bytes(), bytes);
    }

    #[test]
    fn documents_01_and_02_have_266_kinds_with_variants() {
        let pairs = (0..=255).flat_map(|kind| (0..=255).filter(move |variant| shape(kind, *variant).is_some()));
        assert_eq!(pairs.count(), 266);
    }
}
