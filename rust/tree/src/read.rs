//! Records and names become a readable text, from which `write` makes the same bytes again, whatever they are.

use crate::line::quote;
use crate::record::{split, Record, MOST_RECORDS};
use crate::table::{form_of, Holds};
use crate::walk::{walk, Place, Walk};
use crate::write::{tree_of, Tree};

/// The text of a tree.rec and a names.txt.
pub fn text_of(tree: &[u8], names: &[u8]) -> String {
    let (records, rest) = split(tree);
    if !rest.is_empty() {
        return raw(&records, names, rest, "not made of whole records of 12 bytes");
    }
    if records.is_empty() || records.len() > MOST_RECORDS {
        return raw(
            &records,
            names,
            rest,
            &format!("{} records, where 1 to {MOST_RECORDS} are allowed", records.len()),
        );
    }
    let walk = walk(&records, names);
    match walk.refusal {
        None => worded(&records, names, &walk),
        Some((number, place)) => raw(&records, names, rest, &format!("refusal {number} at {place}")),
    }
}

/// The text of a well-formed tree. Where its names are not each once in the order of first use, they are written as
/// they stand.
fn worded(records: &[Record], names: &[u8], walk: &Walk) -> String {
    let node = |at: bool| move |(record, place): (&Record, &Place)| worded_line(*record, *place, names, at);
    let plain: String = records.iter().zip(&walk.places).map(node(false)).collect();
    let same = |made: Tree| made.names == names && made.nodes.iter().map(|node| &node.record).eq(records);
    if tree_of(&plain).is_ok_and(same) {
        return plain;
    }
    let exact = records.iter().zip(&walk.places).map(node(true));
    std::iter::once(names_line(names)).chain(exact).collect()
}

/// The line of a record, its name with its offset where that is asked for.
fn worded_line(record: Record, place: Place, names: &[u8], at: bool) -> String {
    let indent = "  ".repeat(place.depth.saturating_sub(1));
    let Some(form) = form_of(record.kind, record.variant) else { return raw_line(record) };
    let mut line = indent + &form.head(record.variant);
    match form.holds {
        Holds::Signed => line += &format!(" {}", record.a.cast_signed()),
        Holds::Unsigned => line += &format!(" {}", record.a),
        _ if form.has_text(record.variant) => {
            line += &format!(" {}", quote(record.text(names).unwrap_or_default()));
            if at {
                line += &format!(" at {}", record.a);
            }
        }
        _ => {}
    }
    line + "\n"
}

/// Records as they are, with the reason.
fn raw(records: &[Record], names: &[u8], rest: &[u8], reason: &str) -> String {
    let mut text = format!("# No well-formed tree ({reason}): raw records, kind variant count a b.\n");
    text += &names_line(names);
    text.extend(records.iter().map(|record| raw_line(*record)));
    if !rest.is_empty() {
        text += &format!("Bytes {}\n", quote(rest));
    }
    text
}

fn raw_line(record: Record) -> String {
    let Record { kind, variant, count, a, b } = record;
    let comment = form_of(kind, variant).map_or("nothing".into(), |form| form.head(variant));
    format!("{kind} {variant} {count} {a} {b}  # {comment}\n")
}

/// The line of the names; none where there are none.
fn names_line(names: &[u8]) -> String {
    if names.is_empty() {
        String::new()
    } else {
        format!("Names {}\n", quote(names))
    }
}

#[cfg(test)]
mod tests {
    use super::*;

    fn bytes(records: &[[u8; 5]]) -> Vec<u8> {
        let record = |[kind, variant, count, a, b]: &[u8; 5]| Record {
            kind: *kind,
            variant: *variant,
            count: (*count).into(),
            a: (*a).into(),
            b: (*b).into(),
        };
        records.iter().flat_map(|fields| record(fields).to_bytes()).collect()
    }

    #[test]
    fn names_in_another_order_are_written_as_they_stand() {
        let tree = bytes(&[[16, 0, 0, 0, 0], [1, 0, 0, 1, 1], [1, 0, 0, 0, 1]]);
        assert_eq!(text_of(&tree, b"ab"), "Names \"ab\"\nComma\n  Variable \"b\" at 1\n  Variable \"a\" at 0\n");
        assert_eq!(text_of(&tree, b"ba"), "Names \"ba\"\nComma\n  Variable \"a\" at 1\n  Variable \"b\" at 0\n");
        let in_order = bytes(&[[16, 0, 0, 0, 0], [1, 0, 0, 0, 1], [1, 0, 0, 1, 1]]);
        assert_eq!(text_of(&in_order, b"ba"), "Comma\n  Variable \"b\"\n  Variable \"a\"\n");
    }

    #[test]
    fn damaged_trees_are_raw() {
        assert_eq!(
            text_of(&[&bytes(&[[80, 0, 1, 0, 0]])[..], &[7]].concat(), b"x"),
            "# No well-formed tree (not made of whole records of 12 bytes): raw records, kind variant count a b.\n\
             Names \"x\"\n80 0 1 0 0  # Unit\nBytes \"\\x07\"\n"
        );
        assert!(text_of(&bytes(&[[80, 0, 1, 0, 0]]), b"").contains("refusal 4 at 1"));
        assert!(text_of(&bytes(&[[80, 0, 1, 0, 0], [1, 0, 0, 0, 0]]), b"").contains("refusal 5 at 1"));
        assert!(text_of(&bytes(&[[1, 9, 0, 0, 0]]), b"").contains("refusal 7 at 0"));
        assert!(
            text_of(&bytes(&[[80, 0, 1, 0, 0], [47, 5, 0, 0, 0], [28, 0, 0, 0, 0]]), b"").contains("refusal 8 at 2")
        );
        assert!(text_of(&bytes(&[[80, 0, 0, 0, 1]]), b"").contains("refusal 9 at 0"));
        assert!(text_of(&bytes(&[[1, 0, 0, 0, 1]]), b"").contains("refusal 10 at 0"));
        assert!(text_of(&bytes(&[[80, 0, 0, 0, 0], [80, 0, 0, 0, 0]]), b"").contains("refusal 12 at 1"));
    }
}
