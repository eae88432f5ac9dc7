//! What is read as text and written again is the same bytes: the examples, the recorded questions of crates/replay, and
//! random bytes.

mod sample;

use sample::{cases, examples, file, Case};
use tree::explain::{explain, meaning};
use tree::read::text_of;
use tree::write::tree_of;

/// Reads and writes; answers whether the tree was written in words.
fn round_trip(tree: &[u8], names: &[u8]) -> bool {
    let text = text_of(tree, names);
    let made = tree_of(&text).unwrap_or_else(|fault| panic!("{fault:?} in\n{text}"));
    assert_eq!(made.tree_bytes(), tree, "{text}");
    assert_eq!(made.names, names, "{text}");
    !text.starts_with('#')
}

/// A text without comments and empty lines.
fn bare(text: &str) -> String {
    let lines = text.lines().map(|line| line.split('#').next().unwrap_or_default().trim_end());
    lines.filter(|line| !line.is_empty()).flat_map(|line| [line, "\n"]).collect()
}

#[test]
fn examples_are_what_their_records_are_read_as() {
    for path in examples() {
        let path = path.with_extension("txt");
        let text = std::fs::read_to_string(&path).expect("it is ASCII");
        let tree = tree_of(&text).unwrap_or_else(|fault| panic!("{}: {fault:?}", path.display()));
        assert_eq!(text_of(&tree.tree_bytes(), &tree.names), bare(&text), "{}", path.display());
    }
}

#[test]
fn the_sample_of_print() {
    assert!(round_trip(&file("crates/print/data/tree.rec"), &file("crates/print/data/names.txt")));
}

/// What is told of the trees of a sample is what the Rust module or the oracle answered.
fn replay(path: &str) {
    for Case { records, names, number, value, .. } in cases(path) {
        let in_words = round_trip(&records, &names);
        let text = text_of(&records, &names);
        compare(number, value, in_words, &text);
        explained(number.into(), value, &text);
    }
}

/// A tree that was printed, or not for want of room, is written in words; one that was refused for its shape, as raw
/// records with the same refusal. Of settings, sizes and what is wrong with names nothing is said.
fn compare(refusal: u8, place: usize, in_words: bool, text: &str) {
    match refusal {
        0 | 13 => assert!(in_words, "{text}"),
        // A unit where an expression is printed, or the other way round: as text both can be read.
        5 if place == 0 => {}
        4..=10 | 12 => assert!(text.contains(&format!("(refusal {refusal} at {place})")), "{text}"),
        _ => {}
    }
}

/// What was refused can be explained, with that place and no other near it. (The place of 13 is a length, and 5 at 0 can
/// be told of any tree.)
fn explained(number: usize, place: usize, text: &str) {
    let tree = tree_of(text).unwrap_or_else(|fault| panic!("{fault:?} in\n{text}"));
    // Where the settings or the root were refused, the records may have another refusal besides.
    let others: &[usize] =
        if matches!((number, place), (1, _) | (5, 0)) { &[] } else { &[4, 6, 7, 8, 9, 10, 11, 12, 15] };
    for told in others.iter().copied().chain([number]) {
        for at in (0..4).chain(place.saturating_sub(2)..place + 3) {
            let is_told = explain(&tree, told, at).is_ok();
            let must_be = (told, at) == (number, place) && number != 0;
            assert!(
                is_told == must_be || matches!((told, at), (13, _) | (5, 0)),
                "{told} at {at}, {number} at {place}\n{text}"
            );
        }
    }
    assert!(number == 0 || explain(&tree, number, place).is_ok(), "{number} at {place}\n{text}");
}

#[test]
fn recorded_expressions() {
    replay("crates/replay/data/expressions.rec");
}

#[test]
fn recorded_units() {
    replay("crates/replay/data/units.rec");
}

/// A small generator of numbers that look random (xorshift).
struct Random(u64);

impl Random {
    fn next(&mut self) -> u64 {
        self.0 ^= self.0 << 13;
        self.0 ^= self.0 >> 7;
        self.0 ^= self.0 << 17;
        self.0
    }

    fn below(&mut self, bound: u64) -> usize {
        (self.next() % bound) as usize
    }

    fn bytes(&mut self, most: u64, bound: u64) -> Vec<u8> {
        (0..self.below(most)).map(|_| self.below(bound) as u8).collect()
    }
}

#[test]
fn random_bytes() {
    let mut random = Random(1);
    for round in 0..20_000 {
        let bound = [256, 90, 17, 3][round % 4];
        round_trip(&random.bytes(100, bound), &random.bytes(40, bound));
    }
}

/// Bytes of a good tree, some of them changed.
#[test]
fn damaged_trees() {
    let (tree, names) = (file("crates/print/data/tree.rec"), file("crates/print/data/names.txt"));
    let mut random = Random(2);
    for _ in 0..1_000 {
        let mut damaged = tree.clone();
        for _ in 0..=random.below(3) {
            let at = random.below(damaged.len() as u64);
            damaged[at] = random.below(90) as u8;
        }
        damaged.truncate(damaged.len() - [0, 0, 12, 5][random.below(4)]);
        round_trip(&damaged, &names);
    }
}

/// Texts of any letters, and texts made of the words of a good one, are read or have a fault; what is read can be
/// explained.
#[test]
fn random_texts() {
    let mut random = Random(3);
    let words: Vec<String> =
        String::from_utf8(file("examples/filter.txt")).expect("it is ASCII").lines().map(String::from).collect();
    for round in 0..20_000 {
        let text = if round % 2 == 0 {
            String::from_utf8_lossy(&random.bytes(60, 128)).into_owned()
        } else {
            (0..random.below(8)).map(|_| words[random.below(words.len() as u64)].clone() + "\n").collect()
        };
        if let Ok(tree) = tree_of(&text) {
            let (number, place) = (random.below(17), random.below(8));
            match explain(&tree, number, place) {
                Ok(lines) => assert!(meaning(number).is_some() && lines.len() >= 2, "{lines:?}"),
                Err(doubt) => assert!(!doubt.is_empty()),
            }
        }
    }
}

/// Depth is no danger: a text of many levels is read, records of many levels are written raw.
#[test]
fn deep_trees() {
    let text: String = (0..3_000).map(|depth| " ".repeat(depth) + "PostInc\n").collect::<String>()
        + &" ".repeat(3_000)
        + "Variable \"x\"";
    let tree = tree_of(&text).expect("it is well-formed");
    assert_eq!(tree.nodes.len(), 3_001);
    assert!(!round_trip(&tree.tree_bytes(), &tree.names));
}
