//! Trees written by hand: records as bytes, one tree behind the other.

use crate::record::Record;

/// Several trees, one behind the other.
pub fn all(trees: &[&[u8]]) -> Vec<u8> {
    trees.concat()
}

/// A record: kind, variant, count, a, b.
pub fn rec(kind: u8, variant: u8, count: u16, a: u32, b: u32) -> Vec<u8> {
    Record { kind, variant, count, a, b }.to_bytes().to_vec()
}

/// With a variant alone.
pub fn plain(kind: u8, variant: u8) -> Vec<u8> {
    rec(kind, variant, 0, 0, 0)
}

/// With a count alone.
pub fn many(kind: u8, count: u16) -> Vec<u8> {
    rec(kind, 0, count, 0, 0)
}

/// With the one-letter name at an offset.
pub fn named(kind: u8, variant: u8, offset: u32) -> Vec<u8> {
    rec(kind, variant, 0, offset, 1)
}

/// A variable with the one-letter name at an offset.
pub fn var(offset: u32) -> Vec<u8> {
    named(1, 0, offset)
}

/// An IntConst.
pub fn int(bits: u32) -> Vec<u8> {
    rec(2, 0, 0, bits, 0)
}

/// A type that is a keyword.
pub fn keyword(variant: u8) -> Vec<u8> {
    all(&[&plain(20, 0), &plain(21, variant)])
}

/// `void` and a one-letter name, without parameters; the body is to follow.
pub fn function(offset: u32) -> Vec<u8> {
    all(&[&plain(81, 0), &named(40, 0, offset), &plain(31, 0), &keyword(0)])
}

/// A declaration of a one-letter name; its type is to follow.
pub fn declared(offset: u32) -> Vec<u8> {
    all(&[&plain(47, 1), &plain(42, 0), &named(43, 1, offset), &plain(31, 0)])
}
