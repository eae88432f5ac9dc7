//! What a refusal means, and the line that its place points to (document 01, "Calls"; document 02, #105).

use crate::ranges::ranges;
use crate::record::{Record, MOST_NAMES, MOST_RECORDS};
use crate::table::{form_of, Class, Holds};
use crate::walk::{walk, Walk, DEEPEST};
use crate::words::{fixed_words, has_form, name_sort, words_of, NameSort, RESERVED};
use crate::write::{Node, Tree};

/// The room of the program `print`, in bytes.
const ROOM: usize = 65_536;

/// The number of each refusal, what it means and what its place is.
pub const REFUSALS: &[(usize, &str, &str)] = &[
    (1, "the settings are neither 21 nor 22 bytes, or one of these is out of range", "0"),
    (2, "there are no records, the bytes are no whole records, or there are more than 4,096", "0"),
    (3, "the names have more than 32,768 bytes", "0"),
    (4, "a record is expected, and none is left", "the number of records"),
    (5, "no node of this kind may stand here", "the record"),
    (6, "the node is too deep", "the record"),
    (7, "its kind has no such variant", "the record"),
    (8, "it counts no children and must have one at least", "the record"),
    (9, "a field that its kind does not use (count, a or b) is not 0", "the record"),
    (10, "its text ends beyond the names", "the record"),
    (11, "its text has the wrong form", "the record"),
    (12, "records are left over behind the tree", "the first of them"),
    (13, "the text is longer than the room", "the length needed"),
    (15, "it declares a reserved name (gl_..)", "the record"),
];

/// What a refusal means; nothing where there is none of that number.
pub fn meaning(number: usize) -> Option<&'static str> {
    REFUSALS.iter().find(|(own, ..)| *own == number).map(|(_, meaning, _)| *meaning)
}

/// The lines that explain a refusal of a tree; or why that tree is not refused so.
pub fn explain(tree: &Tree, number: usize, place: usize) -> Result<Vec<String>, String> {
    let Some(meaning) = meaning(number) else {
        let numbers = ranges(REFUSALS.iter().map(|(number, ..)| *number));
        return Err(format!("there is no refusal {number}; they have the numbers {numbers}"));
    };
    let records: Vec<Record> = tree.nodes.iter().map(|node| node.record).collect();
    let walk = walk(&records, &tree.names);
    if let Some(doubt) = doubt(tree, &walk, number, place) {
        return Err(format!("this tree is not refused by {number} at {place}: {doubt}"));
    }
    let mut lines = vec![format!("refusal {number}: {meaning}")];
    match number {
        1 => lines.push("place 0 says nothing: the tree was not looked at".into()),
        2 => lines.push(format!(
            "place 0 says nothing; here are {} records and {} bytes behind them",
            records.len(),
            tree.rest.len()
        )),
        3 => lines.push(format!("place 0 says nothing; here are {} bytes of names", tree.names.len())),
        4 => lines.extend(missing(tree, &walk, place)),
        13 => lines.push(format!(
            "the answer asks for a room of {place} bytes, which depends on the settings and is not looked at here; the program has {ROOM}"
        )),
        _ => lines.extend(at_node(tree, &walk, number, place)),
    }
    Ok(lines)
}

/// Why a tree can't be refused by a number at a place. Settings and the length of what is printed are not looked at.
fn doubt(tree: &Tree, walk: &Walk, number: usize, place: usize) -> Option<String> {
    let first = first_refusal(tree, walk);
    let (possible, otherwise) = match (number, sizes_refused(tree)) {
        (1, _) => (place == 0, "the place of that refusal is 0".into()),
        (_, Some(first)) => (number == first && place == 0, format!("it is refused by {first} at 0")),
        (2 | 3, None) => (false, "its records and names have sizes that are allowed".into()),
        // An expression where a unit is printed, or the other way round.
        (5, None) if place == 0 => (true, String::new()),
        (13, None) if first.is_none() => (place > 0, "the text's length is the place".into()),
        (_, None) => (first == Some((number, place)), found(first)),
    };
    (!possible).then_some(otherwise)
}

/// The first refusal of a tree's records, with its place: 4 to 12 or 15.
fn first_refusal(tree: &Tree, walk: &Walk) -> Option<(usize, usize)> {
    let fixed_words = fixed_words();
    let fitting = walk.refusal.map_or(walk.places.len(), |(_, place)| place);
    let mut records = tree.nodes.iter().zip(&walk.places).take(fitting).enumerate();
    let first = records.find_map(|(index, (node, place))| {
        text_refused(node.record, place.class, &tree.names, &fixed_words).map(|number| (number, index))
    });
    first.or(walk.refusal.map(|(number, place)| (usize::from(number), place)))
}

/// The refusal of a record's text where a class is asked for, if there is one: 11 or 15.
fn text_refused(record: Record, class: Class, names: &[u8], fixed_words: &[String]) -> Option<usize> {
    let form = form_of(record.kind, record.variant).filter(|form| form.has_text(record.variant))?;
    let text = record.text(names).unwrap_or_default();
    if !has_form(text, form.holds, fixed_words) {
        return Some(11);
    }
    let reserved = form.declares_in(class) && name_sort(text, fixed_words) == NameSort::Reserved;
    reserved.then_some(15)
}

/// What is found in the records.
fn found(first: Option<(usize, usize)>) -> String {
    match first {
        Some((number, place)) => format!("its records are refused by {number} at {place}"),
        None => "its records fit together".into(),
    }
}

/// The refusal of a tree for its sizes, if there is one: 2 or 3.
fn sizes_refused(tree: &Tree) -> Option<usize> {
    if tree.nodes.is_empty() || tree.nodes.len() > MOST_RECORDS || !tree.rest.is_empty() {
        return Some(2);
    }
    (tree.names.len() > MOST_NAMES).then_some(3)
}

/// What is missing at the end of the records.
fn missing(tree: &Tree, walk: &Walk, place: usize) -> Vec<String> {
    let mut lines = vec![format!("place {place} is behind the last record")];
    if let Some(missing) = walk.missing.filter(|_| walk.places.len() == place) {
        lines.push(format!("expected there: {}", missing.class.called()));
        lines.extend(above(tree, missing.parent));
    }
    lines
}

/// The line of a node, and what the refusal found there.
fn at_node(tree: &Tree, walk: &Walk, number: usize, place: usize) -> Vec<String> {
    let Some(node) = tree.nodes.get(place) else {
        return vec![format!("place {place} is no record of this tree, which has {}", tree.nodes.len())];
    };
    let mut lines = vec![shown(node)];
    let Some(found) = walk.places.get(place) else { return lines };
    let Record { kind, variant, count, a, b } = node.record;
    match number {
        5 => {
            lines.push(format!("expected here: {}", found.class.called()));
            lines.extend(above(tree, found.parent));
        }
        6 => lines.push(format!("it is at depth {}, where {DEEPEST} are allowed and the root is at 1", found.depth)),
        7 => lines.push(format!("it has variant {variant}; possible here: {}", variants(kind, found.class))),
        8 => lines.extend(form_of(kind, variant).map(|form| format!("it has {}", form.parts_called()))),
        9 => lines.push(format!("it has count {count}, a {a}, b {b}; it uses {}", used(kind, variant))),
        10 => lines.push(format!("it begins at {a} and has {b} bytes; the names have {}", tree.names.len())),
        11 => {
            lines.extend(fixed_word(node.record, &tree.names));
            lines.push(form_of_text(node.record).into());
        }
        15 => lines.push(reserved_name(node.record, &tree.names)),
        _ => {}
    }
    lines
}

/// The variants that a kind may have at a place.
fn variants(kind: u8, class: Class) -> String {
    let possible = |variant: &u8| form_of(kind, *variant).is_some() && class.takes(kind, *variant);
    ranges((0..=u8::MAX).filter(possible).map(usize::from))
}

/// The fields that records of a kind and variant use besides these two.
fn used(kind: u8, variant: u8) -> &'static str {
    let Some(form) = form_of(kind, variant) else { return "none of them" };
    match (form.counts().0, form.has_text(variant), form.holds) {
        (true, true, _) => "all of them",
        (true, false, _) => "the count alone",
        (false, true, _) => "a and b",
        (false, false, Holds::Signed | Holds::Unsigned) => "a alone",
        (false, false, _) => "none of them",
    }
}

/// The line of the node above, with the children that it has.
fn above(tree: &Tree, parent: Option<usize>) -> Option<String> {
    let node = tree.nodes.get(parent?)?;
    let form = form_of(node.record.kind, node.record.variant)?;
    Some(format!("below {}, where stand: {}", shown(node), form.parts_called()))
}

/// What a record's name is if it is a fixed word. A type that is recorded by such a name has to be a Keyword.
fn fixed_word(record: Record, names: &[u8]) -> Option<String> {
    form_of(record.kind, record.variant).filter(|form| form.holds != Holds::Float)?;
    let text = record.text(names)?;
    let place = |words: Vec<String>| words.iter().position(|word| word.as_bytes() == text);
    let word = String::from_utf8_lossy(text);
    match place(words_of(21)) {
        Some(variant) => Some(format!(
            "{word} is a type word of GLSL and no name; where that type is meant, the node is Keyword {word} (kind 21, \
             variant {variant})"
        )),
        None => place(fixed_words()).map(|_| format!("{word} is a word of GLSL and no name")),
    }
}

/// Why a record's name can't be declared, and what to do.
fn reserved_name(record: Record, names: &[u8]) -> String {
    let name = String::from_utf8_lossy(record.text(names).unwrap_or_default());
    format!(
        "{name} begins with {RESERVED}: GLSL keeps such names for itself (4.60, section 3.7). They may be used, but \
         functions, structs and parameters must have other names"
    )
}

/// The form that a record's text must have.
fn form_of_text(record: Record) -> &'static str {
    match form_of(record.kind, record.variant).map(|form| form.holds) {
        Some(Holds::Float) => {
            "the text of a float has 1 to 400 bytes: digits without a needless 0 in front, then nothing, or a point \
             and digits of which the last is not 0"
        }
        _ => {
            "a name has 1 to 255 ASCII letters, digits and underscores, no digit first, and is no word that the \
             printer writes itself (if, vec3, image2D, true ..)"
        }
    }
}

/// A node's line; what a raw record is, is added.
fn shown(node: &Node) -> String {
    let line = format!("line {}: {}", node.line, node.words);
    match form_of(node.record.kind, node.record.variant) {
        Some(form) if node.words.starts_with(|first: char| first.is_ascii_digit()) => {
            format!("{line} ({})", form.head(node.record.variant))
        }
        _ => line,
    }
}

#[cfg(test)]
mod tests {
    use super::*;
    use crate::write::tree_of;

    fn explained(text: &str, number: usize, place: usize) -> String {
        explained_or_not(text, number, place).expect("it can be")
    }

    fn explained_or_not(text: &str, number: usize, place: usize) -> Result<String, String> {
        explain(&tree_of(text).expect("it is well-formed"), number, place).map(|lines| lines.join("\n"))
    }

    #[test]
    fn a_name_of_the_wrong_form() {
        let said = explained("# a comment\nPostInc\n  Variable \"i-f\"  # no name\n", 11, 1);
        assert!(said.contains("\nline 3: Variable \"i-f\"\na name has"), "{said}");
    }

    /// A tree that was printed before request #102 is told why it is not any more.
    #[test]
    fn a_name_that_is_a_word_of_glsl() {
        let said = explained("PostInc\n  Variable \"if\"\n", 11, 1);
        assert!(said.contains("\nline 2: Variable \"if\"\nif is a word of GLSL and no name\na name has"), "{said}");
        let said = explained("FunCall\n  Type\n    TypeName \"image2D\"\n", 11, 2);
        let lines = "\nline 3: TypeName \"image2D\"\nimage2D is a type word of GLSL and no name; where that type is \
                     meant, the node is Keyword image2D (kind 21, variant 92)\na name has";
        assert!(said.contains(lines), "{said}");
        let said = explained("FloatConst \"if\"\n", 11, 0);
        assert!(said.contains("\nline 1: FloatConst \"if\"\nthe text of a float has"), "{said}");
    }

    /// Trees that declare a name: a function in a prototype and in a definition, a parameter, and a struct in a declaration
    /// and in a callee; each with the place of the record, and what it is.
    const DECLARING: [(&str, usize, &str); 5] = [
        ("80 0 1\n47\n40 NAME\n31\n20\n21", 2, "40 NAME (Prototype)"),
        ("80 0 1\n81\n40 NAME\n31\n20\n21\n60", 2, "40 NAME (Prototype)"),
        ("80 0 1\n47\n40 0 1 \"f\"\n31\n20\n21\n41 1\n20\n21 2\n27 NAME", 9, "27 NAME (Identifier)"),
        ("80 0 1\n47 1\n42\n43\n31\n20\n23 1 NAME", 6, "23 1 NAME (Struct)"),
        ("FunCall\n  Type\n    Struct NAME", 2, "Struct NAME"),
    ];

    #[test]
    fn a_reserved_name_that_is_declared() {
        for (tree, place, node) in DECLARING {
            let said = explained(&tree.replace("NAME", "\"gl_x\""), 15, place);
            let must_be = format!(
                "refusal 15: it declares a reserved name (gl_..)\nline {}: {}\n\
                 gl_x begins with gl_: GLSL keeps such names for itself (4.60, section 3.7). They may be used, but \
                 functions, structs and parameters must have other names",
                place + 1,
                node.replace("NAME", "\"gl_x\"")
            );
            assert_eq!(said, must_be);
        }
    }

    /// What may be declared is not refused, and what is no name is refused for that.
    #[test]
    fn other_names_that_are_declared() {
        for (tree, place, _) in DECLARING {
            for (name, found) in [("GL_x", "fit together".into()), ("gl_-", format!("are refused by 11 at {place}"))] {
                let doubt = explained_or_not(&tree.replace("NAME", &format!("{name:?}")), 15, place);
                assert_eq!(doubt, Err(format!("this tree is not refused by 15 at {place}: its records {found}")));
            }
        }
    }

    /// All that holds a name and may hold a reserved one.
    const USING: &str = r#"
Unit
  Declaration invariant "gl_x"
  Declaration block
    Block "gl_x"
      Qualifier
        Layout
          LayoutId "gl_x"
      Field
        Type
          TypeName "gl_x"
        Identifier "gl_x"
      Identifier "gl_x"
  Function
    Prototype "f"
      Full type
        Type
          Keyword void
    Compound
      Declaration list
        Declarators
          First declarator "gl_x"
            Full type
              Type
                Struct "S"
                  Field
                    Type
                      Keyword int
                    Identifier "gl_x"
          Next declarator
            Identifier "gl_x"
      While
        Condition assignment "gl_x"
          Full type
            Type
              Keyword bool
          Initializer
            Dot "gl_x"
              Variable "gl_x"
        Break
"#;

    #[test]
    fn reserved_names_that_are_used() {
        let nodes = tree_of(USING).expect("it is well-formed").nodes;
        assert_eq!(nodes.iter().filter(|node| node.words.contains("gl_x")).count(), 12);
        for place in 0..nodes.len() {
            let doubt = explained_or_not(USING, 15, place);
            assert_eq!(doubt, Err(format!("this tree is not refused by 15 at {place}: its records fit together")));
        }
    }

    /// At a record 15 comes behind 11, which comes behind 10; of two records the first decides; then come records that are
    /// left over.
    #[test]
    fn the_order_of_refusals_of_texts() {
        for (records, first) in [
            ("20\n23 1 0 0 5\n1 0 0 0 5", (10, 2)),
            ("20\n23 1 0 0 4\n1 0 0 0 5", (11, 2)),
            ("20\n23 1 0 0 3\n1 0 0 0 5", (15, 2)),
            ("20\n23 1 0 0 3\n1 0 0 0 4", (15, 2)),
            ("20\n23 1 0 0 3\n80", (15, 2)),
            ("20\n23 1 0 0 3\n1 0 0 0 1\n80", (15, 2)),
            ("20\n23 1 0 0 2\n1 0 0 0 4\n80", (11, 3)),
            ("20\n23 1 0 0 2\n1 0 0 0 3\n80", (12, 4)),
            ("20\n22 0 0 0 3\n1 0 0 0 3\n80", (12, 4)),
            ("13 0 0 0 4\n12\n20\n23 1 0 0 3", (11, 1)),
            ("20 2\n23 1 0 0 3", (7, 1)),
        ] {
            let tree = format!("Names \"gl_-\"\n12 0 1\n{records}");
            assert_eq!(refusals_told(&tree), [(1, 0), (5, 0), first], "{records}");
        }
    }

    #[test]
    fn a_node_that_may_not_stand_there() {
        let said = explained("80 0 1\n  1 \"x\"\n", 5, 1);
        let end = "line 2: 1 \"x\" (Variable)\nexpected here: Declaration or Function\n\
                   below line 1: 80 0 1 (Unit), where stand: any number of: Declaration or Function";
        assert!(said.ends_with(end), "{said}");
    }

    #[test]
    fn a_record_that_is_missing() {
        let said = explained("8 14\n  Variable \"x\"\n", 4, 2);
        let end = "expected there: an expression\n\
                   below line 1: 8 14 (Binary Add), where stand: an expression; an expression";
        assert!(said.ends_with(end), "{said}");
    }

    #[test]
    fn fields_that_do_not_fit() {
        assert!(explained("7 6\n  IntConst 1", 7, 0).ends_with("line 1: 7 6\nit has variant 6; possible here: 0 to 5"));
        assert!(explained("Unit\n  47 2\n    29 3", 7, 2).ends_with("it has variant 3; possible here: 19 to 21"));
        assert!(explained("14 1\n  IntConst 1", 7, 0).ends_with("it has variant 1; possible here: 0"));
        assert!(explained("Unit\n  47 5\n    28", 8, 2).contains("it has one or more of: Storage, "));
        assert!(explained("2 0 0 5 6", 9, 0).ends_with("it has count 0, a 5, b 6; it uses a alone"));
        assert!(explained("80 0 0 5", 9, 0).ends_with("it uses the count alone"));
        assert!(explained("1 0 0 5 6", 10, 0).ends_with("it begins at 5 and has 6 bytes; the names have 0"));
    }

    #[test]
    fn settings_that_are_none() {
        let said = "refusal 1: the settings are neither 21 nor 22 bytes, or one of these is out of range\n\
                    place 0 says nothing: the tree was not looked at";
        assert_eq!(explained("Unit", 1, 0), said);
    }

    #[test]
    fn places_that_are_no_record() {
        assert!(explained("Unit", 13, 70000).contains("70000 bytes"));
        assert!(explained(&format!("Names \"{}\"\nUnit", "x".repeat(32_769)), 3, 0).contains("32769 bytes of names"));
        assert!(explained("Bytes \"x\"", 2, 0).ends_with("0 records and 1 bytes behind them"));
        assert!(explained("Variable \"x\"", 5, 0).contains("expected here: Unit (or an expression"));
    }

    /// Each number and place that a tree can be refused by, of small ones and the greatest.
    fn refusals_told(text: &str) -> Vec<(usize, usize)> {
        let pairs =
            (0..20).chain([usize::MAX]).flat_map(|number| (0..5).chain([usize::MAX]).map(move |at| (number, at)));
        pairs.filter(|(number, place)| explained_or_not(text, *number, *place).is_ok()).collect()
    }

    #[test]
    fn what_is_no_refusal_of_a_tree() {
        assert_eq!(refusals_told("Unit\n1\n2"), [(1, 0), (5, 0), (12, 1)]);
        assert_eq!(refusals_told("PostInc\n  Variable \"if\""), [(1, 0), (5, 0), (11, 1)]);
        assert_eq!(refusals_told("Variable \"x\"").split_off(3), [(13, 2), (13, 3), (13, 4), (13, usize::MAX)]);
        assert_eq!(refusals_told("Comma\n  Variable \"x\"\n  7 6\n    Variable \"y\""), [(1, 0), (5, 0), (7, 2)]);
        assert_eq!(refusals_told("Comma\n  FloatConst \"1.0\"\n  7 6\n    Variable \"y\""), [(1, 0), (5, 0), (11, 1)]);
        assert_eq!(refusals_told("Bytes \"x\""), [(1, 0), (2, 0)]);
    }

    #[test]
    fn doubts_say_why() {
        let doubt = |number, place| explained_or_not("Unit", number, place).expect_err("it can't be");
        for number in [0, 14, 16, 99] {
            let none = format!("there is no refusal {number}; they have the numbers 1 to 13, 15");
            assert_eq!(doubt(number, 0), none);
        }
        assert_eq!(doubt(7, 1), "this tree is not refused by 7 at 1: its records fit together");
        assert_eq!(doubt(1, 1), "this tree is not refused by 1 at 1: the place of that refusal is 0");
    }
}
