//! Few small trees that show everything: the ones worth damaging in every place.

use crate::answer::{Question, Root};
use crate::grow;
use crate::record::{shape, Record, SIZE};
use std::collections::BTreeMap;

/// The last kind that an expression can hold: a layout's id, in a struct that is called.
const LAST_OF_EXPR: u8 = 30;
/// The kind of a struct.
const STRUCT: u8 = 23;

/// The records of a question, as far as they are whole.
pub fn records(question: &Question) -> impl Iterator<Item = Record> + '_ {
    question.records.as_chunks::<SIZE>().0.iter().map(Record::from_bytes)
}

/// Whether a tree has a struct. An expression has them in the types of callees alone.
pub fn has_struct(question: &Question) -> bool {
    records(question).any(|record| record.kind == STRUCT)
}

/// Every kind and variant that a tree with this root can hold.
pub fn pairs(root: Root) -> impl Iterator<Item = (u8, u8)> {
    let last = match root {
        Root::Unit => u8::MAX,
        Root::Expr => LAST_OF_EXPR,
    };
    let all = (0..=last).flat_map(|kind| (0..=u8::MAX).map(move |variant| (kind, variant)));
    all.filter(|&(kind, variant)| shape(kind, variant).is_some())
}

/// For each kind and variant the smallest of so many grown trees with this root that holds it; each tree once.
pub fn smallest(root: Root, seed: u64, cases: u64) -> Vec<Question> {
    let mut smallest = BTreeMap::new();
    for case in 0..cases {
        let question = grow::rooted(root, seed, case);
        let size = question.records.len() + question.names.len();
        for record in records(&question) {
            let best = smallest.entry((record.kind, record.variant)).or_insert((size, case));
            *best = (size, case).min(*best);
        }
    }
    let mut chosen: Vec<u64> = smallest.into_values().map(|(_, case)| case).collect();
    chosen.sort_unstable();
    chosen.dedup();
    chosen.into_iter().map(|case| grow::rooted(root, seed, case)).collect()
}

#[cfg(test)]
mod tests {
    use super::*;
    use std::collections::BTreeSet;

    #[test]
    fn every_kind_and_variant_is_there_and_trees_are_small() {
        for (root, count) in [(Root::Unit, 266), (Root::Expr, 212)] {
            let trees = smallest(root, 1, 60_000);
            let seen: BTreeSet<(u8, u8)> = trees.iter().flat_map(records).map(|r| (r.kind, r.variant)).collect();
            assert_eq!(seen, pairs(root).collect());
            assert_eq!(seen.len(), count);
            assert!(trees.len() < count);
            assert!(trees.iter().all(|tree| tree.records.len() <= 25 * SIZE));
        }
    }
}
