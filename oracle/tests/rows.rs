//! The Rust module's answers to document 01's "Texts to match", and to the rows of our own in crates/text/proofs/Rows.antt; the
//! second printer's to rows with needed spaces (02, #106); and both's to rows with the rest of the opaque types (02, #102).
//!
//! The trees are built here by hand a second time, so that a slip in that file's records shows as a difference.

mod common;

use common::ask;
use oracle::answer::{Outcome, Root};
use oracle::settings::{longer, EXPORT, OPEN, SIZE, TIGHT};
use oracle::tree::{all, declared, function, int, keyword, many, named, plain, rec, var};
use oracle::words::{FIRST_KEYWORDS, TYPE_KEYWORDS};

/// Asserts the text of a unit in one settings.
fn unit_in(settings: &[u8], records: &[u8], names: &str, text: &str) {
    let answer = ask(Root::Unit, settings, records, names);
    assert_eq!((answer.text, answer.joined), (Outcome::Given(text.into()), None));
}

/// Asserts the texts of a unit in TIGHT and OPEN.
fn unit(records: &[u8], names: &str, tight: &str, open: &str) {
    unit_in(&TIGHT, records, names, tight);
    unit_in(&OPEN, records, names, open);
}

/// Asserts the text of an expression in one settings, and the answer to the joined question.
fn expr_in(settings: &[u8], records: &[u8], names: &str, text: &str, joined: bool) {
    let answer = ask(Root::Expr, settings, records, names);
    assert_eq!((answer.text, answer.joined), (Outcome::Given(text.into()), Some(Outcome::Given(joined))));
}

/// Asserts the texts of an expression in TIGHT and OPEN, and the answer to the joined question. With a byte 21 of 0 they are the
/// same; with 1 they are if nothing is joined.
fn expr(records: &[u8], names: &str, tight: &str, open: &str, joined: bool) {
    for (settings, text) in [(TIGHT, tight), (OPEN, open)] {
        expr_in(&settings, records, names, text, joined);
        expr_in(&longer(settings, 0), records, names, text, joined);
        if !joined {
            expr_in(&longer(settings, 1), records, names, text, joined);
        }
    }
}

/// Asserts the texts of a joined expression in EXPORT, and in OPEN with needed spaces.
fn spaced(records: &[u8], names: &str, export: &str, open: &str) {
    expr_in(&EXPORT, records, names, export, true);
    expr_in(&OPEN_SPACED, records, names, open, true);
}

fn minus() -> Vec<u8> {
    plain(8, 15)
}

fn negate() -> Vec<u8> {
    plain(7, 3)
}

fn decrement() -> Vec<u8> {
    plain(7, 1)
}

fn give_back() -> Vec<u8> {
    plain(68, 3)
}

// Document 01's rows, in its order, with the two joined answers that 02's request #103 changes: minus over `--a`, and the Dot.

#[test]
fn a_minus_minus_b_is_joined() {
    expr(&all(&[&minus(), &var(0), &negate(), &var(1)]), "ab", "a--b", "a - -b", true);
}

#[test]
fn decremented_a_minus_b_is_not_joined() {
    expr(&all(&[&minus(), &plain(15, 0), &var(0), &var(1)]), "ab", "a---b", "a-- - b", false);
}

#[test]
fn a_minus_decremented_b_is_joined() {
    expr(&all(&[&minus(), &var(0), &decrement(), &var(1)]), "ab", "a---b", "a - --b", true);
}

#[test]
fn minus_of_minus() {
    expr(&all(&[&negate(), &negate(), &var(0)]), "a", "-(-a)", "-(-a)", false);
}

#[test]
fn minus_of_decrement_and_the_other_way_round() {
    expr(&all(&[&negate(), &decrement(), &var(0)]), "a", "---a", "---a", true);
    expr(&all(&[&decrement(), &negate(), &var(0)]), "a", "---a", "---a", false);
}

#[test]
fn minus_on_either_side() {
    expr(&all(&[&minus(), &var(0), &minus(), &var(1), &var(2)]), "abc", "a-(b-c)", "a - (b - c)", false);
    expr(&all(&[&minus(), &minus(), &var(0), &var(1), &var(2)]), "abc", "a-b-c", "a - b - c", false);
}

#[test]
fn increment_of_a_bracket() {
    expr(&all(&[&plain(14, 0), &plain(11, 0), &var(0), &int(1)]), "a", "(a[1])++", "(a[1])++", false);
}

#[test]
fn call_with_a_comma() {
    expr(&all(&[&many(12, 1), &var(0), &plain(16, 0), &var(1), &var(2)]), "fab", "f(a,b)", "f(a, b)", false);
}

#[test]
fn ternary_as_condition() {
    let choose = plain(9, 0);
    let records = all(&[&choose, &choose, &var(0), &var(1), &var(2), &var(3), &var(4)]);
    expr(&records, "abcde", "(a?b:c)?d:e", "(a ? b : c) ? d : e", false);
}

#[test]
fn double_and_dot_of_one() {
    expr(&named(6, 0, 0), "1", "1.lf", "1.lf", false);
    expr(&all(&[&rec(13, 0, 0, 0, 2), &int(1)]), "lf", "1.lf", "1.lf", true);
}

#[test]
fn least_int() {
    expr(&int(1 << 31), "", "-2147483648", "-2147483648", false);
}

#[test]
fn empty_unit() {
    unit(&many(80, 0), "", "", "");
}

#[test]
fn function_that_returns() {
    let records = all(&[&many(80, 1), &function(0), &many(60, 1), &plain(68, 4), &negate(), &var(1)]);
    unit(&records, "fa", "void f(){return -a;}", "void f() {\n    return -a;\n}\n");
}

#[test]
fn declared_int_of_the_program() {
    unit(&all(&[&many(80, 1), &declared(0), &keyword(2)]), "x", "int x;", "int x;");
}

// Our own rows.

/// The sign can be a constant's, or stand in a callee; a plus or a Dot that meets no sign and no IntConst joins nothing.
#[test]
fn signs_meet_or_not() {
    let call = many(12, 0);
    expr(&all(&[&negate(), &int(u32::MAX)]), "", "--1", "--1", true);
    expr(&all(&[&negate(), &call, &negate(), &var(0)]), "a", "--a()", "--a()", true);
    expr(&all(&[&minus(), &var(0), &call, &negate(), &var(1)]), "ab", "a--b()", "a - -b()", true);
    expr(&all(&[&plain(7, 2), &plain(7, 0), &var(0)]), "a", "+++a", "+++a", true);
    expr(&all(&[&plain(7, 2), &decrement(), &var(0)]), "a", "+--a", "+--a", false);
    expr(&all(&[&named(13, 0, 0), &int(u32::MAX)]), "x", "-1.x", "-1.x", true);
    expr(&all(&[&named(13, 0, 0), &rec(3, 0, 0, 1, 0)]), "x", "1u.x", "1u.x", false);
    let product = all(&[&minus(), &var(0), &plain(8, 16), &negate(), &var(1), &var(2)]);
    expr(&product, "abc", "a--b*c", "a - -b * c", true);
    let weak_callee = all(&[&negate(), &call, &plain(16, 0), &negate(), &var(0), &var(1)]);
    expr(&weak_callee, "ab", "--a,b()", "--a, b()", true);
    let sized = all(&[&many(24, 1), &plain(25, 1), &negate(), &decrement(), &var(1)]);
    let field = all(&[&many(26, 1), &plain(20, 0), &plain(21, 2), &named(27, 1, 0), &sized]);
    let structure = all(&[&call, &plain(20, 0), &many(23, 1), &field]);
    expr(&structure, "ab", "struct {int a[---b];}()", "struct  {\n    int a[---b];\n}()", true);
}

// Needed spaces (02, #106).

const OPEN_SPACED: [u8; SIZE + 1] = longer(OPEN, 1);

#[test]
fn operands_are_spaced() {
    let (increment, plus) = (plain(7, 0), plain(7, 2));
    spaced(&all(&[&minus(), &var(0), &negate(), &var(1)]), "ab", "a- -b", "a - -b");
    spaced(&all(&[&negate(), &decrement(), &var(0)]), "a", "- --a", "- --a");
    spaced(&all(&[&minus(), &var(0), &decrement(), &var(1)]), "nk", "n- --k", "n - --k");
    spaced(&all(&[&plain(8, 14), &var(0), &plus, &var(1)]), "ab", "a+ +b", "a + +b");
    spaced(&all(&[&plus, &increment, &var(0)]), "a", "+ ++a", "+ ++a");
    // An expression is spaced wherever it stands, and behind a callee too.
    spaced(&all(&[&negate(), &many(12, 0), &negate(), &var(0)]), "a", "- -a()", "- -a()");
    let product = all(&[&minus(), &var(0), &plain(8, 16), &negate(), &var(1), &var(2)]);
    spaced(&product, "abc", "a- -b*c", "a - -b * c");
}

#[test]
fn dots_behind_ints_are_spaced() {
    let dot = named(13, 0, 0);
    spaced(&all(&[&dot, &int(1)]), "x", "1 .x", "1 .x");
    spaced(&all(&[&dot, &int(1 << 31)]), "x", "-2147483648 .x", "-2147483648 .x");
    spaced(&all(&[&rec(13, 0, 0, 0, 2), &int(1)]), "lf", "1 .lf", "1 .lf");
    spaced(&all(&[&dot, &dot, &int(1)]), "x", "1 .x.x", "1 .x.x");
}

#[test]
fn unsound_trees_are_spaced_too() {
    spaced(&all(&[&minus(), &var(0), &int(u32::MAX)]), "a", "a- -1", "a - -1");
    spaced(&all(&[&negate(), &int(u32::MAX)]), "", "- -1", "- -1");
    let thrice = all(&[&minus(), &var(0), &negate(), &named(13, 0, 1), &int(u32::MAX)]);
    spaced(&thrice, "ax", "a- - -1 .x", "a - - -1 .x");
}

/// `int a[---b]=1.x;`, and a function whose body is `while(a--b)return ---b;`.
#[test]
fn expressions_in_units_are_spaced() {
    let doubly = all(&[&negate(), &decrement(), &var(1)]);
    let first = all(&[&plain(47, 1), &plain(42, 0), &named(43, 7, 0), &plain(31, 0), &keyword(2)]);
    let array = all(&[&many(24, 1), &plain(25, 1), &doubly]);
    let declaration = all(&[&first, &array, &plain(45, 0), &named(13, 0, 3), &int(1)]);
    let condition = all(&[&plain(69, 0), &minus(), &var(0), &negate(), &var(1)]);
    let body = all(&[&many(60, 1), &plain(65, 0), &condition, &plain(68, 4), &doubly]);
    let records = all(&[&many(80, 2), &declaration, &function(2), &body]);
    let tight = "int a[---b]=1.x;void f(){while(a--b)return ---b;}";
    let open = "int a[---b] = 1.x;\nvoid f() {\n    while (a - -b) return ---b;\n}\n";
    unit(&records, "abfx", tight, open);
    unit_in(&EXPORT, &records, "abfx", "int a[- --b]=1 .x;void f(){while(a- -b)return - --b;}");
    let open = "int a[- --b] = 1 .x;\nvoid f() {\n    while (a - -b) return - --b;\n}\n";
    unit_in(&OPEN_SPACED, &records, "abfx", open);
}

// The rest of the opaque types (02, #102). The Rust module misspells two of them: its text is mended.

/// The keyword alone, beside names that are spelt as the module misspells it, and with a needed space behind it.
#[test]
fn misspelt_keywords_are_mended() {
    for (variant, word, names) in [(69, "isampler2DMS", "isampler2MS"), (73, "usampler2DMSArray", "usamplerDMSArray")] {
        let length = u32::try_from(names.len()).expect("short");
        let name = |kind, variant| rec(kind, variant, 0, 0, length);
        let call = |arguments| all(&[&many(12, arguments), &keyword(variant)]);
        let alone = format!("{word}()");
        expr(&call(0), "", &alone, &alone, false);
        let beside = format!("{word}({names})");
        expr(&all(&[&call(1), &name(1, 0)]), names, &beside, &beside, false);
        let other_way_round = all(&[&many(12, 1), &name(1, 0), &call(0)]);
        expr(&other_way_round, names, &format!("{names}({word}())"), &format!("{names}({word}())"), false);
        let joined = all(&[&call(1), &minus(), &name(1, 0), &negate(), &call(0)]);
        expr(&joined, names, &format!("{word}({names}--{word}())"), &format!("{word}({names} - -{word}())"), true);
        spaced(&joined, names, &format!("{word}({names}- -{word}())"), &format!("{word}({names} - -{word}())"));
        let list = all(&[&plain(47, 1), &plain(42, 0), &name(43, 1), &plain(31, 0)]);
        let declared = all(&[&many(80, 2), &list, &keyword(variant), &list, &plain(20, 0), &name(22, 0)]);
        let [tight, open] = [";", ";\n"].map(|end| format!("{word} {names}{end}{names} {names}{end}"));
        unit(&declared, names, &tight, open.trim_end());
        unit_in(&EXPORT, &declared, names, &tight);
        unit_in(&OPEN_SPACED, &declared, names, open.trim_end());
    }
}

/// All of them, in section 3.6's order.
#[test]
fn opaque_types_are_written() {
    let words = &TYPE_KEYWORDS[FIRST_KEYWORDS..];
    let types: Vec<u8> = (51..=118).flat_map(keyword).collect();
    let records = all(&[&many(80, 1), &plain(47, 5), &many(28, 1), &rec(29, 17, 68, 0, 0), &types]);
    let [tight, open] = [",", ", "].map(|comma| format!("subroutine({});", words.join(comma)));
    unit(&records, "", &tight, &open);
    unit_in(&EXPORT, &records, "", &tight);
    unit_in(&OPEN_SPACED, &records, "", &open);
}

/// OPEN and TIGHT with collapse, and a mixture in which a flushed newline shows.
const COLLAPSING: [u8; SIZE] = with(TIGHT, 15, 1);
const OPEN_COLLAPSING: [u8; SIZE] = with(OPEN, 15, 1);
const MIXED: [u8; SIZE] = [1, 2, 0, 1, 0, 0, 0, 0, 0, 0, 0, 0, 0, 1, 1, 0, 0, 0, 0, 0, 0];

const fn with(mut settings: [u8; SIZE], at: usize, byte: u8) -> [u8; SIZE] {
    settings[at] = byte;
    settings
}

#[test]
fn flushed_newline_is_not_pending() {
    let records = all(&[&many(80, 1), &function(0), &many(60, 2), &plain(68, 4), &negate(), &var(1), &give_back()]);
    unit_in(&MIXED, &records, "fa", "void f(){\n\t\treturn -a; return; } ");
}

#[test]
fn compound_of_one_collapses() {
    let records = all(&[&many(80, 1), &function(0), &many(60, 1), &many(60, 1), &give_back()]);
    unit_in(&COLLAPSING, &records, "f", "void f(){return;}");
}

#[test]
fn compound_of_two_does_not_collapse() {
    let records = all(&[&many(80, 1), &function(0), &many(60, 1), &many(60, 2), &give_back(), &give_back()]);
    unit_in(&COLLAPSING, &records, "f", "void f(){{return;return;}}");
}

/// `if (a) { return; } else { return; }` in a function.
fn if_else() -> Vec<u8> {
    let branch = all(&[&many(60, 1), &give_back()]);
    all(&[&many(80, 1), &function(0), &many(60, 1), &plain(62, 1), &var(1), &branch, &branch])
}

#[test]
fn if_else_in_tight_and_open() {
    let open = "void f() {\n    if (a) {\n        return;\n    } else {\n        return;\n    }\n}\n";
    unit(&if_else(), "fa", "void f(){if(a){return;}else {return;}}", open);
}

#[test]
fn if_else_collapsed() {
    let open = "void f() {\n    if (a) \n        return; else \n        return;\n}\n";
    unit_in(&OPEN_COLLAPSING, &if_else(), "fa", open);
}

#[test]
fn struct_in_a_struct() {
    let inner = all(&[&plain(20, 0), &many(23, 1), &many(26, 1), &keyword(4), &named(27, 0, 2)]);
    let outer = all(&[&plain(20, 0), &rec(23, 1, 1, 1, 1), &many(26, 1), &inner, &named(27, 0, 3)]);
    let records = all(&[&many(80, 1), &declared(0), &outer]);
    let open = "struct S {\n    struct  {\n        float x;\n    } t;\n} s;";
    unit(&records, "sSxt", "struct S{struct {float x;} t;} s;", open);
}
