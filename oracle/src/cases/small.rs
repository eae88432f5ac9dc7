//! All expressions of so many records over a small alphabet.
//!
//! The alphabet has every unary and binary operator, and names and constants that could run into their neighbours; no callee
//! has a struct.

use super::tight;
use crate::answer::{Question, Root};
use crate::read;
use crate::record::SIZE;
use crate::tree::{int, many, plain, rec};
use glsl_lang::ast;
use std::ops::RangeInclusive;

/// The names: `a`, `x`, `lf`, `e1`; of its last three bytes the float texts `1` and `1.5`.
const NAMES: &str = "axlfe11.5";

/// What may stand at a place of a tree.
#[derive(Clone, Copy, PartialEq, Eq)]
enum Sort {
    Expr,
    /// An expression or a type.
    Callee,
    /// A type's word.
    Word,
    Array,
    Dimension,
}

impl Sort {
    /// The fewest records that can stand there.
    fn least(self) -> usize {
        match self {
            Self::Array => 2,
            _ => 1,
        }
    }
}

/// A record, the sorts of place where it may stand, and those of its children.
struct Letter {
    bytes: [u8; SIZE],
    stands: &'static [Sort],
    children: Vec<Sort>,
}

/// All records that are tried.
fn alphabet() -> Vec<Letter> {
    use Sort::{Array, Callee, Dimension, Expr, Word};
    let exprs = exprs().into_iter().map(|(records, children)| (records, &[Expr, Callee] as &[_], children));
    let types = [
        (vec![plain(20, 0)], &[Callee] as &[_], vec![Word]),
        (vec![plain(20, 1)], &[Callee], vec![Word, Array]),
        (vec![plain(21, 2), text(22, 0, 1)], &[Word], vec![]),
        (vec![many(24, 1)], &[Array], vec![Dimension]),
        (vec![many(24, 2)], &[Array], vec![Dimension; 2]),
        (vec![plain(25, 0)], &[Dimension], vec![]),
        (vec![plain(25, 1)], &[Dimension], vec![Expr]),
    ];
    let rows = exprs.chain(types).flat_map(|(records, stands, children)| {
        records.into_iter().map(move |record| Letter { bytes: whole(&record), stands, children: children.clone() })
    });
    rows.collect()
}

/// The records of expressions, and the sorts of their children.
fn exprs() -> [(Vec<Vec<u8>>, Vec<Sort>); 7] {
    use Sort::{Callee, Expr};
    let each = |kind, variants: RangeInclusive<u8>| variants.map(move |variant| plain(kind, variant));
    let atoms = [text(1, 0, 1), int(1), int(u32::MAX), rec(3, 0, 0, 1, 0), plain(4, 1)];
    let floats = [text(5, 6, 1), text(5, 6, 3), text(6, 6, 1), text(6, 6, 3)];
    let postfixes = [text(13, 1, 1), text(13, 2, 2), text(13, 4, 2), plain(14, 0), plain(15, 0)];
    let pairs = [plain(10, 0), plain(10, 4), plain(11, 0), plain(16, 0)];
    [
        (atoms.into_iter().chain(floats).collect(), vec![]),
        (each(7, 0..=5).chain(postfixes).collect(), vec![Expr]),
        (each(8, 0..=18).chain(pairs).collect(), vec![Expr; 2]),
        (vec![plain(9, 0)], vec![Expr; 3]),
        (vec![many(12, 0)], vec![Callee]),
        (vec![many(12, 1)], vec![Callee, Expr]),
        (vec![many(12, 2)], vec![Callee, Expr, Expr]),
    ]
}

/// A record with a text.
fn text(kind: u8, start: u32, length: u32) -> Vec<u8> {
    rec(kind, 0, 0, start, length)
}

/// A record's bytes.
fn whole(bytes: &[u8]) -> [u8; SIZE] {
    bytes.try_into().expect("a record's bytes")
}

/// Grows every tree in preorder.
struct Forest<'a> {
    letters: &'a [Letter],
    /// The records so far.
    records: Vec<u8>,
    /// The places that are still to be filled, the next one last.
    places: Vec<Sort>,
}

impl Forest<'_> {
    /// Shows every way to fill the places with exactly so many records.
    fn grow(&mut self, left: usize, show: &mut impl FnMut(&[u8])) {
        if left < self.places.iter().map(|place| place.least()).sum() {
            return;
        }
        let Some(place) = self.places.pop() else {
            if left == 0 {
                show(&self.records);
            }
            return;
        };
        for letter in self.letters.iter().filter(|letter| letter.stands.contains(&place)) {
            let (records, places) = (self.records.len(), self.places.len());
            self.records.extend(letter.bytes);
            self.places.extend(letter.children.iter().rev());
            // A place was left, so at least one record is.
            self.grow(left - 1, show);
            self.records.truncate(records);
            self.places.truncate(places);
        }
        self.places.push(place);
    }
}

/// Shows the records of all expressions of exactly so many.
fn each_of_size(records: usize, show: &mut impl FnMut(&[u8])) {
    let letters = alphabet();
    Forest { letters: &letters, records: Vec::new(), places: vec![Sort::Expr] }.grow(records, show);
}

/// Shows all expressions of exactly so many records.
pub fn trees(records: usize, mut show: impl FnMut(&ast::Expr)) {
    each_of_size(records, &mut |records| {
        let whole = read::expr(records, NAMES.as_bytes()).expect("the alphabet makes good trees");
        show(&whole.tree);
    });
}

/// Questions about all expressions of up to so many records.
pub fn questions(most: usize) -> Vec<Question> {
    let mut questions = Vec::new();
    for records in 1..=most {
        each_of_size(records, &mut |records| questions.push(tight(Root::Expr, records.to_vec(), NAMES)));
    }
    questions
}

#[cfg(test)]
mod tests {
    use super::*;

    #[test]
    fn all_expressions_are_shown() {
        for (records, expressions) in [(0, 0), (1, 9), (2, 9 * 12), (3, 9 * 12 * 12 + 24 * 9 * 9 + 2)] {
            let mut shown = 0;
            trees(records, |_| shown += 1);
            assert_eq!(shown, expressions);
        }
        assert_eq!(questions(2).len(), 9 + 9 * 12);
    }
}
