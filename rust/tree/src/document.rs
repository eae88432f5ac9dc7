//! The tables of docs/RECORDS.md as Markdown: what it says of kinds, words, refusals and examples is what the tools go
//! by. Each is a block between two comments of the document.

use crate::explain::REFUSALS;
use crate::ranges::ranges;
use crate::table::{Class, Form, Holds, Part, FORMS};
use crate::words::{fixed_words, symbols_of, words_of};
use crate::write::{tree_of, Node};

/// How each form is printed: its name is NAME, its word or operator WORD, its children are $1, $2, .. in order, and
/// `..` stands for more of the one before.
#[rustfmt::skip]
const PRINTED: &[(u8, u8, &str)] = &[
    (1, 0, "NAME"), (2, 0, "decimal, behind `-` where it is negative"), (3, 0, "decimal, and `u`"), (4, 0, "WORD"),
    (5, 0, "TEXT, with `.` behind it where it has no point"), (6, 0, "the same, and `lf`"),
    (7, 0, "WORD$1"), (8, 0, "$1 WORD $2"), (9, 0, "$1 ? $2 : $3"), (10, 0, "$1 WORD $2"), (11, 0, "$1[$2]"),
    (12, 0, "$1($2, ..)"), (13, 0, "$1.NAME"), (14, 0, "$1++"), (15, 0, "$1--"), (16, 0, "$1, $2"),
    (20, 0, "$1$2"), (21, 0, "WORD"), (22, 0, "NAME"), (23, 0, "struct NAME {$1; ..}"), (24, 0, "$1.."),
    (25, 0, "`[]` or `[$1]`"), (26, 0, "$1 $2 $3, .."), (27, 0, "NAME$1"), (28, 0, "$1 .."),
    (29, 0, "WORD"), (29, 17, "`subroutine` or `subroutine($1, ..)`"), (29, 18, "layout($1, ..)"), (29, 19, "WORD"),
    (29, 22, "WORD"), (29, 25, "invariant"), (29, 26, "precise"),
    (30, 0, "`NAME` or `NAME = $1`"), (30, 2, "shared"), (31, 0, "$1 $2"),
    (40, 0, "$1 NAME($2, ..)"), (41, 0, "$1 $2 $3"), (42, 0, "$1, $2, .."), (43, 0, "$1 NAME$2 = $3"),
    (44, 0, "$1 = $2"), (45, 0, "$1"), (45, 1, "{ $1, .. }"), (46, 0, "$1 NAME {$2; ..}$3"),
    (47, 0, "$1;"), (47, 1, "$1;"), (47, 2, "precision $1 $2;"), (47, 3, "$1;"), (47, 4, "invariant NAME;"),
    (47, 5, "$1;"),
    (60, 0, "{$1 ..}"), (61, 0, "`;` or `$1;`"), (62, 0, "`if ($1) $2` or `if ($1) $2 else $3`"), (63, 0, "switch ($1) {$2 ..}"),
    (64, 0, "default:"), (64, 1, "case $1:"), (65, 0, "while ($1) $2"), (66, 0, "do $1 while ($2);"),
    (67, 0, "for ($1 $2; $3) $4"), (68, 0, "continue;"), (68, 1, "break;"), (68, 2, "discard;"),
    (68, 3, "`return;` or `return $1;`"), (69, 0, "$1"), (69, 1, "$1 NAME = $2"), (70, 0, "`;` or `$1;`"),
    (70, 2, "$1"), (80, 0, "$1 .."), (81, 0, "$1 $2"),
];

/// What stands behind a name, or a node with one, where it is declared.
const DECLARED: &str = ", declared";

/// The most bytes of a row of fixed words.
const WIDEST_ROW: usize = 112;

/// The trees of the examples, by their texts.
const EXAMPLES: [(&str, &str); 2] = [
    (
        "int x;",
        "Unit\n  Declaration list\n    Declarators\n      First declarator \"x\"\n        Full type\n          Type\n\
         \x20           Keyword int\n",
    ),
    ("a - -b", "Binary Sub\n  Variable \"a\"\n  Unary Minus\n    Variable \"b\"\n"),
];

/// The blocks, each with its name.
pub fn blocks() -> Vec<(String, String)> {
    let mut blocks: Vec<(String, String)> = [
        ("kinds", kinds()),
        ("places", places()),
        ("operators", operators()),
        ("type words", tens(&words_of(21))),
        ("qualifier words", tens(&words_of(29))),
        ("fixed words", fixed_words_shown()),
        ("refusals", refusals()),
    ]
    .map(|(name, text)| (name.into(), text))
    .into();
    blocks.extend(EXAMPLES.map(|(name, tree)| (format!("example {name}"), example(tree))));
    blocks
}

/// All blocks with their comments, one behind the other.
pub fn all_blocks() -> String {
    blocks().iter().map(|(name, text)| format!("{}{text}{}", first_line(name), last_line(name))).collect()
}

/// A document with its blocks as they must be; or which block it does not have.
pub fn filled(document: &str) -> Result<String, String> {
    blocks().iter().try_fold(document.to_string(), |document, (name, text)| {
        let ends = document.split_once(&first_line(name)).and_then(|(before, rest)| {
            let (_, after) = rest.split_once(&last_line(name))?;
            Some((before, after))
        });
        let (before, after) = ends.ok_or_else(|| format!("the block \"{name}\" is not in it"))?;
        Ok([before, &first_line(name), text, &last_line(name), after].concat())
    })
}

fn first_line(name: &str) -> String {
    format!("<!-- {name}: written by `tools/tree.sh records` -->\n")
}

fn last_line(name: &str) -> String {
    format!("<!-- end of {name} -->\n")
}

/// The fixed words in the order of letters, in lines that are about as long as each other.
fn fixed_words_shown() -> String {
    let mut words = fixed_words();
    words.sort_unstable();
    let mut rows: Vec<String> = Vec::new();
    for word in words {
        match rows.last_mut() {
            Some(row) if row.len() + word.len() < WIDEST_ROW => *row = format!("{row} {word}"),
            _ => rows.push(word),
        }
    }
    format!("\n{}\n", rows.iter().map(|row| format!("    {row}\n")).collect::<String>())
}

/// A table of Markdown.
fn table(head: &[&str], rows: impl Iterator<Item = Vec<String>>) -> String {
    let line = |cells: &[String]| format!("| {} |\n", cells.join(" | "));
    let head: Vec<String> = head.iter().map(ToString::to_string).collect();
    let rule = format!("|{}\n", "---|".repeat(head.len()));
    [line(&head), rule].into_iter().chain(rows.map(|row| line(&row))).collect()
}

/// A text as code in a cell.
fn code(text: &str) -> String {
    format!("`{}`", text.replace('|', "\\|"))
}

fn kinds() -> String {
    let head = ["kind", "variant", "node", "count", "a and b", "children", "printed"];
    table(&head, FORMS.iter().map(|form| row(form).into()))
}

/// The row of a form.
fn row(form: &Form) -> [String; 7] {
    let count = match form.counts() {
        (false, _) => "",
        (true, false) => "n",
        (true, true) => "n ≥ 1",
    };
    [form.kind.to_string(), variants(form), form.label.into(), count.into(), held(form), children(form), printed(form)]
}

/// The variants of a form: a range where they mean words, else the least and what is added to it.
fn variants(form: &Form) -> String {
    if let Some(more) = form.choices.len().checked_sub(1) {
        return format!("{} to {}", form.variant, usize::from(form.variant) + more);
    }
    let name = if let Holds::PerhapsName(flag) = form.holds { Some(flag) } else { None };
    let part = |part: &Part| if let Part::Perhaps(flag, _) = part { Some(*flag) } else { None };
    let mut flags: Vec<u8> = name.into_iter().chain(form.parts.iter().filter_map(part)).collect();
    flags.sort_unstable();
    flags.iter().fold(form.variant.to_string(), |text, flag| format!("{text}, +{flag}"))
}

fn held(form: &Form) -> String {
    let held = match form.holds {
        Holds::Nothing => String::new(),
        Holds::Signed => "a: 32 bits, signed".into(),
        Holds::Unsigned => "a: 32 bits".into(),
        Holds::Name => "name".into(),
        Holds::PerhapsName(flag) => format!("name if +{flag}"),
        Holds::Float => "text of a float".into(),
    };
    held + if form.declares { DECLARED } else { "" }
}

/// The children of a form, by number.
fn children(form: &Form) -> String {
    let child = |(index, part): (usize, &Part)| {
        let number = index + 1;
        match part {
            Part::One(class) => format!("{number}: {}", called(*class)),
            Part::Perhaps(flag, class) => format!("{number} if +{flag}: {}", called(*class)),
            Part::Any(class) | Part::AtLeastOne(class) => format!("{number}: n of {}", called(*class)),
        }
    };
    form.parts.iter().enumerate().map(child).collect::<Vec<_>>().join("; ")
}

fn printed(form: &Form) -> String {
    let text = printed_as(form);
    if text.contains('`') {
        text.into()
    } else {
        code(text)
    }
}

/// How a form is printed, as the document shows it.
pub fn printed_as(form: &Form) -> &'static str {
    let found = PRINTED.iter().find(|(kind, variant, _)| (*kind, *variant) == (form.kind, form.variant));
    found.map_or("", |(_, _, text)| text)
}

/// What may stand at a place.
fn called(class: Class) -> String {
    match class {
        Class::Only(29) => "qualifier word (29)".into(),
        Class::Only(47) => "Declaration (47)".into(),
        Class::Only(kind) => format!("{} ({kind})", class.called()),
        Class::Declaring(kind) => called(Class::Only(kind)) + DECLARED,
        Class::Callee => "callee".into(),
        Class::Expression => "expression".into(),
        Class::Base => "base type".into(),
        Class::Statement => "statement".into(),
        Class::External => "external declaration".into(),
        Class::Precision => "precision".into(),
        Class::Root => "root".into(),
    }
}

/// The places that more than one kind may stand at, or not every variant.
fn places() -> String {
    let classes = [
        Class::Root,
        Class::Expression,
        Class::Callee,
        Class::Base,
        Class::Precision,
        Class::Statement,
        Class::External,
    ];
    table(&["place", "kinds"], classes.into_iter().map(|class| vec![called(class), kinds_at(class)]))
}

/// The kinds that may stand at a place, as ranges.
fn kinds_at(class: Class) -> String {
    let kinds = ranges((0..=u8::MAX).filter(|kind| class.takes_kind(*kind)).map(usize::from));
    match class {
        Class::Precision => format!("{kinds} of variant 19 to 21, else refusal 7"),
        Class::Root => {
            format!("{kinds}: 80 for the print of a unit, the others for that of an expression and for joined")
        }
        _ => kinds,
    }
}

fn operators() -> String {
    let kinds = [7, 8, 10];
    let cell = |kind: u8, variant: usize| {
        let symbol = symbols_of(kind).get(variant);
        symbol.map_or(String::new(), |symbol| {
            let head = words_of(kind).get(variant).cloned().unwrap_or_default();
            format!("{} {head}", code(symbol))
        })
    };
    let rows = 0..kinds.iter().map(|kind| symbols_of(*kind).len()).max().unwrap_or(0);
    table(
        &["variant", "Unary (7)", "Binary (8)", "Assignment (10)"],
        rows.map(|variant| std::iter::once(variant.to_string()).chain(kinds.map(|kind| cell(kind, variant))).collect()),
    )
}

/// Words by number, ten a row.
fn tens(words: &[String]) -> String {
    let head: Vec<String> = std::iter::once("variant".into()).chain((0..10).map(|digit| format!("+{digit}"))).collect();
    let head: Vec<&str> = head.iter().map(String::as_str).collect();
    let row = |(index, row): (usize, &[String])| {
        let mut cells: Vec<String> =
            std::iter::once((10 * index).to_string()).chain(row.iter().map(|word| code(word))).collect();
        cells.resize(11, String::new());
        cells
    };
    table(&head, words.chunks(10).enumerate().map(row))
}

fn refusals() -> String {
    let row =
        |(number, meaning, place): &(usize, &str, &str)| vec![number.to_string(), (*meaning).into(), (*place).into()];
    table(&["no.", "when", "place"], REFUSALS.iter().map(row))
}

/// The records of a tree, byte by byte.
fn example(tree: &str) -> String {
    let nodes = tree_of(tree).map(|tree| tree.nodes).unwrap_or_default();
    let row = |(index, node): (usize, &Node)| {
        let bytes = node.record.to_bytes().map(|byte| byte.to_string());
        let fields = [&bytes[..1], &bytes[1..2], &bytes[2..4], &bytes[4..8], &bytes[8..]].map(|field| field.join(" "));
        [vec![index.to_string()], fields.into(), vec![code(&node.words)]].concat()
    };
    table(&["place", "kind", "variant", "count", "a", "b", "as text"], nodes.iter().enumerate().map(row))
}

#[cfg(test)]
mod tests {
    use super::*;

    #[test]
    fn each_form_is_printed_somehow() {
        for form in FORMS {
            let rows = PRINTED.iter().filter(|(kind, variant, _)| (*kind, *variant) == (form.kind, form.variant));
            assert_eq!(rows.count(), 1, "{} {}", form.kind, form.variant);
        }
        assert_eq!(PRINTED.len(), FORMS.len());
    }

    #[test]
    fn blocks_are_filled() {
        let all = all_blocks();
        assert_eq!(filled(&all), Ok(all.clone()));
        assert_eq!(filled(&all.replace("PostInc", "PostDec")), Ok(all.clone()));
        assert!(filled(&all.replace("<!-- end of kinds", "<!-- end")).is_err());
        assert!(all.contains("\n| 3 | 43 | 1 | 0 0 | 0 0 0 0 | 1 0 0 0 | `First declarator \"x\"` |\n"), "{all}");
    }
}
