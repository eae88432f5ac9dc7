//! A walk along the records of a tree: what each place asks for, up to the first record that does not fit.

use crate::record::Record;
use crate::table::{form_of, Class, Form, Holds};

/// The depth that document 01 allows; the root is at 1.
pub const DEEPEST: usize = 200;

/// A place in a tree.
#[derive(Clone, Copy, Debug, PartialEq, Eq)]
pub struct Place {
    /// How deep it is.
    pub depth: usize,
    /// What it asks for.
    pub class: Class,
    /// The record above it.
    pub parent: Option<usize>,
}

/// What a walk finds.
#[derive(Debug, Default)]
pub struct Walk {
    /// The places of the records, as far as the walk came.
    pub places: Vec<Place>,
    /// The place that no record is left for.
    pub missing: Option<Place>,
    /// The refusal that ended it, with its place: 4 to 10 or 12. What is wrong with texts (11, 15) does not end it.
    pub refusal: Option<(u8, usize)>,
}

/// Walks along the records.
pub fn walk(records: &[Record], names: &[u8]) -> Walk {
    let mut found = Walk::default();
    // What is still expected, the next at the end: a place and how often.
    let mut expected = vec![(Place { depth: 1, class: Class::Root, parent: None }, 1)];
    while let Some((place, times)) = expected.pop() {
        if times > 1 {
            expected.push((place, times - 1));
        }
        let index = found.places.len();
        let Some(record) = records.get(index) else {
            found.missing = Some(place);
            found.refusal = Some((4, index));
            return found;
        };
        found.places.push(place);
        match refusal_of(*record, place, names) {
            Ok(form) => {
                let below = form.children(record.variant, record.count).into_iter().filter(|(_, times)| *times > 0);
                let at = |class| Place { depth: place.depth + 1, class, parent: Some(index) };
                expected.extend(below.rev().map(|(class, times)| (at(class), times)));
            }
            Err(number) => {
                found.refusal = Some((number, index));
                return found;
            }
        }
    }
    if found.places.len() < records.len() {
        found.refusal = Some((12, found.places.len()));
    }
    found
}

/// The form of a record that fits its place, or the number of the first refusal that it gets. Texts that are there (11,
/// 15) are left to `explain`.
fn refusal_of(record: Record, place: Place, names: &[u8]) -> Result<&'static Form, u8> {
    let Record { kind, variant, count, a, b } = record;
    if !place.class.takes_kind(kind) {
        return Err(5);
    }
    if place.depth > DEEPEST {
        return Err(6);
    }
    let form = form_of(kind, variant).filter(|_| place.class.takes(kind, variant)).ok_or(7)?;
    let (counted, at_least_one) = form.counts();
    if at_least_one && count == 0 {
        return Err(8);
    }
    let number_held = matches!(form.holds, Holds::Signed | Holds::Unsigned);
    let unused_a = !number_held && !form.has_text(variant) && a != 0;
    let unused_b = !form.has_text(variant) && b != 0;
    if (!counted && count != 0) || unused_a || unused_b {
        return Err(9);
    }
    if form.has_text(variant) && record.text(names).is_none() {
        return Err(10);
    }
    Ok(form)
}
