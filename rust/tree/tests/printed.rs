//! What docs/RECORDS.md shows in its column "printed" is how trees are printed: trees are put together by it and
//! compared with the texts that the Rust module answered, and with the examples', but for white space and parentheses,
//! of which the column does not tell.

mod sample;

use sample::{cases, examples, Case};
use std::collections::BTreeSet;
use tree::document::printed_as;
use tree::record::{split, Record};
use tree::table::{form_of, Form, FORMS};
use tree::words::{symbols_of, words_of};
use tree::write::tree_of;

/// The setting that leaves out braces.
const COLLAPSE: usize = 15;

/// A text without white space and parentheses.
fn bare(text: &str) -> String {
    text.chars().filter(|c| !c.is_whitespace() && !matches!(c, '(' | ')')).collect()
}

/// A walk along the records, which notes the forms that it meets.
struct Shown<'r> {
    records: Vec<Record>,
    names: &'r [u8],
    at: usize,
    met: BTreeSet<(u8, u8)>,
}

impl Shown<'_> {
    /// The text of the next record and of what is below it.
    fn next(&mut self) -> String {
        let record = self.records[self.at];
        self.at += 1;
        let form = form_of(record.kind, record.variant).expect("it was printed");
        self.met.insert((form.kind, form.variant));
        let below = form.children(record.variant, record.count).into_iter();
        let children: Vec<Vec<String>> = below.map(|(_, times)| (0..times).map(|_| self.next()).collect()).collect();
        let text = record.text(self.names).filter(|_| form.has_text(record.variant)).unwrap_or_default();
        let text = String::from_utf8(text.into()).expect("it is ASCII");
        put_together(form, record, &text, &children)
    }
}

/// A node by what is shown of its form.
fn put_together(form: &Form, record: Record, text: &str, children: &[Vec<String>]) -> String {
    let pointed = if text.contains('.') { text.into() } else { format!("{text}.") };
    match record.kind {
        2 => return record.a.cast_signed().to_string(),
        3 => return format!("{}u", record.a),
        5 => return pointed,
        6 => return pointed + "lf",
        _ => {}
    }
    let there = |shown: &&str| {
        (0..children.len()).all(|index| !shown.contains(&format!("${}", index + 1)) || !children[index].is_empty())
    };
    let printed = printed_as(form);
    let choices: Vec<&str> = printed.split("` or `").map(|choice| choice.trim_matches('`')).collect();
    let chosen = choices.iter().rev().find(|shown| there(shown)).unwrap_or(&choices[0]);
    let variant = usize::from(record.variant);
    let symbol = symbols_of(record.kind).get(variant).map(ToString::to_string);
    let word = symbol.or_else(|| words_of(record.kind).get(variant).cloned()).unwrap_or_default();
    let named = bare(chosen).replace("WORD", &word).replace("NAME", text);
    let places = (1..).map(|number| format!("${number}"));
    children.iter().zip(places).fold(named, |shown, (child, place)| with_child(&shown, &place, child))
}

/// A child, or children with what stands between them, put in its place; where there is none, what leads to it goes too.
fn with_child(shown: &str, place: &str, children: &[String]) -> String {
    let Some((before, behind)) = shown.split_once(place) else {
        assert!(children.is_empty(), "no {place} in {shown}");
        return shown.into();
    };
    let between = [",..", ";..", ".."].into_iter().find(|list| behind.starts_with(list)).unwrap_or("");
    let behind = &behind[between.len()..];
    let before = if children.is_empty() { before.trim_end_matches([',', '=']) } else { before };
    let children = match between {
        ",.." => children.join(","),
        ";.." => children.iter().map(|child| format!("{child};")).collect(),
        _ => children.concat(),
    };
    format!("{before}{children}{behind}")
}

/// Compares a tree that was printed with braces; answers the forms that it has.
fn compare(records: &[u8], names: &[u8], text: &[u8]) -> BTreeSet<(u8, u8)> {
    let mut shown = Shown { records: split(records).0, names, at: 0, met: BTreeSet::new() };
    let text = String::from_utf8(text.into()).expect("it is ASCII");
    assert_eq!(bare(&shown.next()), bare(&text));
    shown.met
}

#[test]
fn the_column_printed_is_how_trees_are_printed() {
    let mut met = BTreeSet::new();
    for sample in ["crates/replay/data/expressions.rec", "crates/replay/data/units.rec"] {
        let printed = cases(sample).into_iter().filter(|case| case.number == 0 && case.settings[COLLAPSE] == 0);
        for Case { records, names, value, room, .. } in printed {
            met.extend(compare(&records, &names, &room[..value]));
        }
    }
    for example in examples() {
        let read = |end: &str| std::fs::read(example.with_extension(end)).expect("it is there");
        let tree = tree_of(&String::from_utf8(read("txt")).expect("it is ASCII")).expect("it is well-formed");
        for settings in ["open.glsl", "tight.glsl", "export.glsl"] {
            met.extend(compare(&tree.tree_bytes(), &tree.names, &read(settings)));
        }
    }
    let all: BTreeSet<(u8, u8)> = FORMS.iter().map(|form| (form.kind, form.variant)).collect();
    assert_eq!(met, all);
}
