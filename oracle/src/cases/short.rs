//! Short inputs, all of them up to some size: one record, a record in each place of document 01's table, and two.

use super::tight;
use crate::answer::{Question, Root};
use crate::read;
use crate::record::{shape, Payload};
use crate::refusal::Reason;
use crate::tree::{all, function, keyword, many, named, plain, rec};

/// The names of every input here.
const NAMES: &str = "x";
/// a and b: nothing, the name `x`, an empty text, and a text that ends beyond the names.
const FIELDS: [(u32, u32); 4] = [(0, 0), (0, 1), (1, 0), (1, 1)];
/// Counts of children.
const COUNTS: [u16; 3] = [0, 1, 2];

/// Single records: every kind, with small variants, counts and fields, for both roots.
pub fn one() -> impl Iterator<Item = Question> {
    let kinds = (0..=255).flat_map(|kind| (0..64).chain([127, 128, 255]).map(move |variant| (kind, variant)));
    let counted = kinds.flat_map(|(kind, variant)| COUNTS.map(|count| (kind, variant, count)));
    let records = counted.flat_map(|(kind, variant, count)| FIELDS.map(|(a, b)| rec(kind, variant, count, a, b)));
    records.flat_map(|record| [Root::Unit, Root::Expr].map(|root| tight(root, record.clone(), NAMES)))
}

/// The records in front of a place: the roots, and the children of document 01's table but for repeated ones.
pub fn places() -> Vec<(Root, Vec<u8>)> {
    let unit = many(80, 1);
    let unit_with = |trees: &[&[u8]]| (Root::Unit, [unit.as_slice(), &trees.concat()].concat());
    let expr_with = |records: Vec<u8>| (Root::Expr, records);
    let list = |count| all(&[&plain(47, 1), &many(42, count)]);
    let first = |variant: u8| all(&[&list(1), &rec(43, variant, 0, 0, (variant & 1).into()), &plain(31, 0)]);
    let prototype = |count| all(&[&plain(47, 0), &rec(40, 0, count, 0, 1), &plain(31, 0), &keyword(0)]);
    let block = |variant| all(&[&plain(47, 3), &rec(46, variant, 1, 0, 1), &many(28, 1), &plain(29, 0)]);
    let statement = all(&[&function(0), &many(60, 1)]);
    let inside = |records: &[u8]| unit_with(&[&statement, records]);
    vec![
        // The roots, and an expression's first and later children.
        (Root::Unit, Vec::new()),
        expr_with(Vec::new()),
        expr_with(plain(7, 0)),
        expr_with(all(&[&plain(8, 0), &plain(4, 0)])),
        expr_with(all(&[&plain(9, 0), &plain(4, 0), &plain(4, 0)])),
        // Callees and arguments.
        expr_with(many(12, 0)),
        expr_with(all(&[&many(12, 1), &plain(4, 0)])),
        // Types: 20, 21..23, 24, 25, a dimension's expression, 26.
        expr_with(all(&[&many(12, 0), &plain(20, 0)])),
        expr_with(all(&[&many(12, 0), &plain(20, 1), &plain(21, 0)])),
        expr_with(all(&[&many(12, 0), &plain(20, 1), &plain(21, 0), &many(24, 1)])),
        expr_with(all(&[&many(12, 0), &plain(20, 1), &plain(21, 0), &many(24, 1), &plain(25, 1)])),
        expr_with(all(&[&many(12, 0), &plain(20, 0), &many(23, 1)])),
        // A field: 28, 20, 27, and the array behind a name.
        expr_with(all(&[&many(12, 0), &plain(20, 0), &many(23, 1), &rec(26, 1, 1, 0, 0)])),
        expr_with(all(&[&many(12, 0), &plain(20, 0), &many(23, 1), &many(26, 1)])),
        expr_with(all(&[&many(12, 0), &plain(20, 0), &many(23, 1), &many(26, 1), &keyword(0)])),
        expr_with(all(&[&many(12, 0), &plain(20, 0), &many(23, 1), &many(26, 1), &keyword(0), &named(27, 1, 0)])),
        // Qualifiers: 28, 29, a type of subroutine, 30, its expression.
        unit_with(&[&plain(47, 5)]),
        unit_with(&[&plain(47, 5), &many(28, 1)]),
        unit_with(&[&plain(47, 5), &many(28, 1), &rec(29, 17, 1, 0, 0)]),
        unit_with(&[&plain(47, 5), &many(28, 1), &rec(29, 18, 1, 0, 0)]),
        unit_with(&[&plain(47, 5), &many(28, 1), &rec(29, 18, 1, 0, 0), &named(30, 1, 0)]),
        // A unit's children; the declarations' first children.
        unit_with(&[]),
        unit_with(&[&plain(47, 0)]),
        unit_with(&[&plain(47, 1)]),
        unit_with(&[&plain(47, 2)]),
        unit_with(&[&plain(47, 2), &plain(29, 19)]),
        unit_with(&[&plain(47, 3)]),
        // Prototypes and parameters.
        unit_with(&[&plain(47, 0), &named(40, 0, 0)]),
        unit_with(&[&prototype(1)]),
        unit_with(&[&prototype(1), &plain(41, 3)]),
        unit_with(&[&prototype(1), &plain(41, 1)]),
        unit_with(&[&prototype(1), &plain(41, 1), &keyword(0)]),
        // Full types, declarators and initializers.
        unit_with(&[&list(0), &named(43, 1, 0)]),
        unit_with(&[&list(0), &named(43, 1, 0), &plain(31, 1)]),
        unit_with(&[&list(0), &named(43, 1, 0), &plain(31, 0)]),
        unit_with(&[&list(0)]),
        unit_with(&[&first(7), &keyword(0)]),
        unit_with(&[&first(5), &keyword(0)]),
        unit_with(&[&first(1), &keyword(0)]),
        unit_with(&[&first(0), &keyword(0), &plain(44, 1)]),
        unit_with(&[&first(0), &keyword(0), &plain(44, 1), &named(27, 0, 0)]),
        unit_with(&[&first(4), &keyword(0), &plain(45, 0)]),
        unit_with(&[&first(4), &keyword(0), &rec(45, 1, 1, 0, 0)]),
        // Blocks.
        unit_with(&[&plain(47, 3), &rec(46, 1, 1, 0, 1)]),
        unit_with(&[&block(1)]),
        unit_with(&[&block(1), &many(26, 1), &keyword(0), &named(27, 0, 0)]),
        // Functions and statements.
        unit_with(&[&plain(81, 0)]),
        unit_with(&[&function(0)]),
        inside(&[]),
        inside(&plain(61, 1)),
        inside(&plain(62, 1)),
        inside(&all(&[&plain(62, 1), &plain(4, 0)])),
        inside(&all(&[&plain(62, 1), &plain(4, 0), &plain(61, 0)])),
        inside(&many(63, 1)),
        inside(&all(&[&many(63, 1), &plain(4, 0)])),
        inside(&plain(64, 1)),
        inside(&plain(65, 0)),
        inside(&all(&[&plain(65, 0), &plain(69, 0)])),
        inside(&all(&[&plain(65, 0), &named(69, 1, 0)])),
        inside(&all(&[&plain(65, 0), &named(69, 1, 0), &plain(31, 0), &keyword(0)])),
        inside(&all(&[&plain(65, 0), &plain(69, 0), &plain(4, 0)])),
        inside(&plain(66, 0)),
        inside(&all(&[&plain(66, 0), &plain(61, 0)])),
        inside(&plain(67, 3)),
        inside(&all(&[&plain(67, 3), &plain(70, 0)])),
        inside(&all(&[&plain(67, 2), &plain(70, 0)])),
        inside(&all(&[&plain(67, 0), &plain(70, 0)])),
        inside(&all(&[&plain(67, 0), &plain(70, 1)])),
        inside(&all(&[&plain(67, 0), &plain(70, 2)])),
        inside(&plain(68, 4)),
    ]
}

/// Every kind and variant in every place, as the last record: counts 0 and 1, without a text and with one.
pub fn in_places() -> impl Iterator<Item = Question> {
    places().into_iter().flat_map(|(root, before)| {
        let kinds = (0..=255).flat_map(|kind| (0..=255).map(move |variant| (kind, variant)));
        let fields = [(0, 0, 0), (1, 0, 0), (0, 0, 1), (1, 0, 1)];
        let records = kinds.flat_map(move |(kind, variant)| fields.map(|(n, a, b)| rec(kind, variant, n, a, b)));
        records.map(move |record| tight(root, all(&[&before, &record]), NAMES))
    })
}

/// In every place every record that is good there, for counts 0 to 2, and behind it a record of every kind, plain or with
/// a text.
pub fn two_in_places() -> impl Iterator<Item = Question> {
    let good = good_records();
    let firsts = places().into_iter().flat_map(move |(root, before)| {
        let trees: Vec<Vec<u8>> = good.iter().map(|record| all(&[&before, record])).collect();
        trees.into_iter().map(move |records| tight(root, records, NAMES)).filter(is_good_so_far)
    });
    firsts.flat_map(|first| {
        let seconds = (0..=255).flat_map(|kind| [(0, 0), (0, 1), (1, 0)].map(|(v, b)| rec(kind, v, v.into(), 0, b)));
        seconds.map(move |second| Question { records: all(&[&first.records, &second]), ..first.clone() })
    })
}

/// Whether the records are a tree or the beginning of one.
pub(super) fn is_good_so_far(question: &Question) -> bool {
    read::refusal(question).is_none_or(|refusal| refusal.reason == Reason::NoneLeft)
}

/// A record for each kind and variant and each count of 0 to 2, with a text where it takes one.
fn good_records() -> Vec<Vec<u8>> {
    let kinds = (0..=255).flat_map(|kind| (0..=255).map(move |variant| (kind, variant)));
    let good = kinds.filter_map(|(kind, variant)| Some((kind, variant, shape(kind, variant)?.1)));
    let records = good.flat_map(|(kind, variant, payload)| {
        let length = u32::from(payload == Payload::Name);
        COUNTS.map(|count| rec(kind, variant, count, 0, length))
    });
    records.collect()
}

#[cfg(test)]
mod tests {
    use super::*;
    use crate::read::refusal;
    use crate::refusal::Refusal;

    #[test]
    fn one_has_every_kind_for_both_roots() {
        assert_eq!(one().count(), 256 * 67 * 3 * 4 * 2);
        // The constants, `x` as a name, and the unit without declarations.
        assert_eq!(one().filter(|question| refusal(question).is_none()).count(), 8);
    }

    #[test]
    fn a_record_is_expected_in_every_place() {
        for (root, records) in places() {
            let count = records.len() / crate::record::SIZE;
            let expected =
                if count == 0 { Refusal::whole(Reason::Records) } else { Refusal::at(Reason::NoneLeft, count) };
            assert_eq!(refusal(&tight(root, records.clone(), NAMES)), Some(expected), "{records:?}");
        }
    }

    #[test]
    fn every_kind_of_the_table_stands_in_some_place() {
        let stands = |kind: u8| {
            places().into_iter().any(|(root, before)| {
                let question = tight(root, all(&[&before, &plain(kind, 0)]), NAMES);
                refusal(&question).is_none_or(|refusal| refusal.reason != Reason::Kind)
            })
        };
        assert!((0..=255).all(|kind| stands(kind) == shape(kind, 0).is_some()));
    }

    #[test]
    fn good_records_are_those_of_the_table() {
        assert_eq!(good_records().len(), 3 * 266);
    }
}
