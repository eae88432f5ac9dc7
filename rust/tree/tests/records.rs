//! docs/RECORDS.md says what the sources say: its tables are those of the tree's own table, and the words of this one,
//! the settings and the limits are those of the printer's crates.

use std::path::Path;
use tree::document::filled;
use tree::explain::{meaning, REFUSALS};
use tree::record::{MOST_NAMES, MOST_RECORDS};
use tree::table::Holds;
use tree::walk::DEEPEST;
use tree::words::{fixed_words, has_form, symbols_of, words_of, RESERVED};

fn file(path: &str) -> String {
    let path = Path::new(env!("CARGO_MANIFEST_DIR")).join("../..").join(path);
    std::fs::read_to_string(&path).unwrap_or_else(|error| panic!("{}: {error}", path.display()))
}

fn document() -> String {
    file("docs/RECORDS.md")
}

/// What stands between two texts.
fn between<'t>(text: &'t str, first: &str, last: &str) -> &'t str {
    let rest = text.split_once(first).unwrap_or_else(|| panic!("no {first}")).1;
    rest.split_once(last).unwrap_or_else(|| panic!("no {last} behind {first}")).0
}

/// The entries of a list of a specification. Lines of comment may stand between them.
fn listed<'s>(spec: &'s str, name: &str) -> Vec<&'s str> {
    let lines = between(spec, &format!("\n{name} ="), "[]").lines().filter(|line| !line.trim().starts_with("--"));
    lines.flat_map(|line| line.split('∷')).map(str::trim).filter(|entry| !entry.is_empty()).collect()
}

/// The entries of a list, each by the text that a function has for it.
fn spelled(spec: &str, name: &str, function: &str) -> Vec<String> {
    let text = |entry: &&str| {
        let argument = if entry.contains(' ') { format!("({entry})") } else { (*entry).into() };
        between(spec, &format!("\n{function} {argument} = \""), "\"\n").to_string()
    };
    listed(spec, name).iter().map(text).collect()
}

/// A number that a specification names.
fn number(spec: &str, name: &str) -> usize {
    between(spec, &format!("\n{name} = "), "\n").parse().unwrap_or_else(|_| panic!("{name} is no number"))
}

/// A number with commas.
fn with_commas(number: usize) -> String {
    if number < 1_000 {
        number.to_string()
    } else {
        format!("{},{:03}", with_commas(number / 1_000), number % 1_000)
    }
}

#[test]
fn the_blocks_are_what_the_table_says() {
    let must_be = filled(&document()).expect("it has each block");
    for (line, (stands, must)) in document().lines().zip(must_be.lines()).enumerate() {
        assert_eq!(
            stands,
            must,
            "docs/RECORDS.md, line {}; `tools/tree.sh records docs/RECORDS.md` writes it",
            line + 1
        );
    }
    assert_eq!(document(), must_be);
}

#[test]
fn the_words_are_those_of_the_printer() {
    let (keywords, words) = (file("crates/words/specs/Keyword.antt"), file("crates/words/specs/Word.antt"));
    let types: Vec<&str> = listed(&keywords, "type_keywords").iter().map(|word| word.trim_matches('"')).collect();
    assert_eq!(words_of(21), types);
    let listed_words = |name: &str| spelled(&words, name, "word_text");
    assert_eq!(words_of(29), listed_words("qualifier_words"));
    assert_eq!(words_of(68), listed_words("jump_words"));
    assert_eq!(words_of(4), listed_words("bool_words"));
    let others = ["qualifier_words", "jump_words", "bool_words", "lone_words"].map(listed_words).concat();
    assert_eq!(fixed_words(), [words_of(21), others].concat());
}

#[test]
fn the_reserved_names_are_those_of_the_printer() {
    let form = file("crates/words/specs/Form.antt");
    assert_eq!(between(&form, "\nreserved s = same (take 3 s) (bytes \"", "\")\n"), RESERVED);
    assert!(document().contains(&format!("A name that begins with `{RESERVED}` is **reserved**")));
}

#[test]
fn the_operators_are_those_of_the_printer() {
    let symbols = file("crates/words/specs/Symbol.antt");
    for (kind, list) in [(7, "unary_operators"), (8, "binary_operators"), (10, "assignment_operators")] {
        assert_eq!(symbols_of(kind), spelled(&symbols, list, "symbol_text"), "{list}");
    }
}

/// The fields of the settings: names and highest values from the code, OPEN from its definition, with a 0 for byte 21,
/// as 21 bytes mean.
fn settings() -> Vec<(String, usize, usize)> {
    let (code, spec) = (file("crates/settings/src/lib.rt"), file("crates/settings/specs/Settings.antt"));
    let names = between(&code, "pub struct Settings {", "\n}").split("pub ").skip(1);
    let constant = |name: &str| -> usize {
        let value = between(&code, &format!("const {name}: u8 = "), ";");
        value.parse().unwrap_or_else(|_| panic!("{name} is {value}"))
    };
    let highest = between(&code, "static LIMITS: [u8;", "];").split_once('[').expect("it is an array").1;
    let highest: Vec<usize> = highest.split(',').map(str::trim).filter(|name| !name.is_empty()).map(constant).collect();
    let mut open: Vec<usize> = listed(&spec, "OPEN").iter().map(|byte| byte.parse().expect("a number")).collect();
    assert_eq!(open.len(), 21);
    open.push(0);
    let names: Vec<String> = names.map(|field| between(&format!(" {field}"), " ", ":").into()).collect();
    assert_eq!([names.len(), highest.len()], [open.len(); 2]);
    names.into_iter().zip(highest).zip(open).map(|((name, highest), open)| (name, highest, open)).collect()
}

#[test]
fn the_settings_are_those_of_the_printer() {
    let (document, settings) = (document(), settings());
    let rows: Vec<&str> =
        between(&document, "\n## Settings\n", "\n## ").lines().filter(|line| line.starts_with("| ")).collect();
    assert_eq!(rows.len(), settings.len() + 1);
    for (index, (row, (name, highest, open))) in rows.iter().skip(1).zip(settings).enumerate() {
        let front = format!("| {index} | `{name}` | {highest} | {open} | ");
        assert!(row.starts_with(&front), "{row}\nbegins not with {front}");
    }
    let spec = file("crates/settings/specs/Settings.antt");
    assert!(listed(&spec, "TIGHT").iter().all(|byte| *byte == "0") && document.contains("TIGHT is every byte 0."));
    let export = format!("GLSL_EXPORT[GLSL_EXPORT_LENGTH] = {{{}1}};", "0, ".repeat(21));
    assert!(file("include/glsl_print.h").contains(&export));
    assert!(document.contains("EXPORT is TIGHT with byte 21 at 1: 21 bytes of 0, and a 1."));
}

#[test]
fn the_limits_are_those_of_the_printer() {
    let (check, form) = (file("crates/accept/specs/Check.antt"), file("crates/words/specs/Form.antt"));
    let records = with_commas(number(&check, "most_records"));
    let names = with_commas(number(&check, "most_name_bytes"));
    let (name, float) = (number(&form, "longest_name"), number(&form, "longest_float"));
    let document = document();
    for row in [
        format!("| records | 1 to {records} |"),
        format!("| names | {names} bytes at most |"),
        format!("| depth | {} at most; ", number(&check, "deepest")),
        format!("| a name | 1 to {name} bytes |"),
        format!("| the text of a float | 1 to {float} bytes |"),
        format!("A **name** has 1 to {name} bytes"),
        format!("The **text of a float** has 1 to {float} bytes"),
    ] {
        assert!(document.contains(&row), "{row}");
    }
    assert!(meaning(2).is_some_and(|text| text.ends_with(&records)));
    assert!(meaning(3).is_some_and(|text| text.contains(&names)));
}

#[test]
fn the_limits_of_trees_are_those_of_the_printer() {
    let (check, form) = (file("crates/accept/specs/Check.antt"), file("crates/words/specs/Form.antt"));
    let ours = [MOST_RECORDS, MOST_NAMES, DEEPEST];
    assert_eq!(ours, ["most_records", "most_name_bytes", "deepest"].map(|name| number(&check, name)));
    for (name, holds, letter) in [("longest_name", Holds::Name, "x"), ("longest_float", Holds::Float, "1")] {
        let fits = |length: usize| has_form(letter.repeat(length).as_bytes(), holds, &fixed_words());
        let longest = number(&form, name);
        assert!(fits(longest) && !fits(longest + 1), "{name}");
    }
}

#[test]
fn the_refusals_are_those_of_the_printer() {
    let spec = file("crates/accept/specs/Refusal.antt");
    let mut numbers: Vec<usize> =
        spec.lines().filter(|line| line.starts_with("number Why.")).map(number_behind).collect();
    numbers.sort_unstable();
    assert_eq!(numbers, REFUSALS.iter().map(|(number, ..)| *number).collect::<Vec<_>>());
}

fn number_behind(line: &str) -> usize {
    line.rsplit(' ').next().and_then(|word| word.parse().ok()).unwrap_or_else(|| panic!("{line}"))
}
