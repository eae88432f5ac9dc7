//! Refusals of the decoder: the documents' table, line by line, and the order among them.

mod common;

use common::ask;
use oracle::answer::{Answer, Outcome, Root};
use oracle::settings::{longer, TIGHT};
use oracle::tree::{all, declared, function, int, keyword, many, named, plain, rec, var};

/// The refusal of a print: number and place. Nothing where the text is given.
fn refusal(answer: &Answer) -> Option<(u8, usize)> {
    match &answer.text {
        Outcome::Refused(refusal) => Some((refusal.number(), refusal.place)),
        Outcome::Given(_) | Outcome::NotAsked => None,
    }
}

/// Asserts the refusal of an expression; the joined question gives the same.
fn expr(records: &[u8], names: &str, expected: Option<(u8, usize)>) {
    let answer = ask(Root::Expr, &TIGHT, records, names);
    assert_eq!(refusal(&answer), expected, "{records:?}");
    if let Outcome::Refused(refusal) = answer.text {
        assert_eq!(answer.joined, Some(Outcome::Refused(refusal)));
    }
}

/// Asserts the refusal of a unit.
fn unit(records: &[u8], names: &str, expected: Option<(u8, usize)>) {
    assert_eq!(refusal(&ask(Root::Unit, &TIGHT, records, names)), expected, "{records:?}");
}

#[test]
fn settings_come_first_but_not_for_the_joined_question() {
    assert_eq!(refusal(&ask(Root::Expr, &[], &[], "")), Some((1, 0)));
    let answer = ask(Root::Expr, &[], &var(0), "x");
    assert_eq!((refusal(&answer), answer.joined), (Some((1, 0)), Some(Outcome::Given(false))));
}

#[test]
fn settings_have_21_or_22_bytes() {
    for (settings, expected) in [
        (vec![0; 20], Some((1, 0))),
        (vec![0; 21], None),
        (vec![0; 22], None),
        (longer(TIGHT, 1).to_vec(), None),
        (longer(TIGHT, 2).to_vec(), Some((1, 0))),
        (longer(TIGHT, 255).to_vec(), Some((1, 0))),
        (vec![0; 23], Some((1, 0))),
    ] {
        assert_eq!(refusal(&ask(Root::Expr, &settings, &var(0), "x")), expected, "{settings:?}");
        assert_eq!(refusal(&ask(Root::Unit, &settings, &many(80, 0), "")), expected, "{settings:?}");
    }
}

#[test]
fn records_must_be_whole_and_few() {
    expr(&[], "", Some((2, 0)));
    expr(&int(1)[..11], "", Some((2, 0)));
    expr(&int(1).repeat(4_097), &" ".repeat(32_769), Some((2, 0)));
    expr(&int(1).repeat(4_096), "", Some((12, 1)));
}

#[test]
fn names_must_be_few() {
    expr(&int(1), &" ".repeat(32_768), None);
    expr(&plain(255, 0), &" ".repeat(32_769), Some((3, 0)));
}

#[test]
fn record_is_missing() {
    expr(&plain(8, 0), "", Some((4, 1)));
    expr(&all(&[&plain(8, 0), &int(1)]), "", Some((4, 2)));
    unit(&many(80, 65_535), "", Some((4, 1)));
}

#[test]
fn kind_is_not_allowed() {
    expr(&plain(0, 0), "", Some((5, 0)));
    expr(&many(80, 0), "", Some((5, 0)));
    expr(&keyword(0), "", Some((5, 0)));
    unit(&int(1), "", Some((5, 0)));
    expr(&all(&[&plain(7, 0), &keyword(0)]), "", Some((5, 1)));
    expr(&all(&[&many(12, 0), &keyword(0)]), "", None);
    unit(&all(&[&many(80, 1), &many(60, 0)]), "", Some((5, 1)));
    unit(&all(&[&many(80, 1), &function(0), &plain(61, 0)]), "f", Some((5, 6)));
    unit(&all(&[&many(80, 1), &function(0), &many(60, 1), &plain(69, 0)]), "f", Some((5, 7)));
}

/// So many unary operators over a constant.
fn chain(operators: usize, last: &[u8]) -> Vec<u8> {
    all(&[&plain(7, 4).repeat(operators), last])
}

#[test]
fn depth_ends_at_200() {
    expr(&chain(199, &int(1)), "", None);
    expr(&chain(200, &int(1)), "", Some((6, 200)));
    // 4 and 5 come before 6, and 6 before 7.
    expr(&chain(200, &[]), "", Some((4, 200)));
    expr(&chain(200, &plain(80, 0)), "", Some((5, 200)));
    expr(&chain(200, &plain(2, 1)), "", Some((6, 200)));
}

#[test]
fn deep_statements_and_structs_are_printed() {
    // Unit and function stand at 1 and 2, the last statement behind the compounds.
    let nested = |compounds| all(&[&many(80, 1), &function(0), &many(60, 1).repeat(compounds), &plain(61, 0)]);
    unit(&nested(197), "f", None);
    unit(&nested(198), "f", Some((6, 204)));
    // 80 47 42 43 31, then 20 23 26 for each struct, then 20 21: at 199 of 200.
    let structs = all(&[&plain(20, 0), &many(23, 1), &many(26, 1)]).repeat(64);
    let names = named(27, 0, 0).repeat(64);
    unit(&all(&[&many(80, 1), &declared(0), &structs, &keyword(2), &names]), "x", None);
}

#[test]
fn variant_is_out_of_range() {
    for (kind, last) in [(4, 1), (7, 5), (8, 18), (10, 10)] {
        let operands = if kind == 4 { Vec::new() } else { int(1).repeat(if kind == 7 { 1 } else { 2 }) };
        expr(&all(&[&plain(kind, last), &operands]), "", None);
        expr(&all(&[&plain(kind, last + 1), &operands]), "", Some((7, 0)));
    }
    // An unused variant is 7, and it comes before 9.
    expr(&rec(2, 1, 1, 0, 1), "", Some((7, 0)));
    unit(&rec(80, 1, 0, 1, 0), "", Some((7, 0)));
}

/// Of a call's type (02, #102).
#[test]
fn type_keywords_end_at_118() {
    for (variant, expected) in
        [(0, None), (50, None), (51, None), (118, None), (119, Some((7, 2))), (255, Some((7, 2)))]
    {
        expr(&all(&[&many(12, 0), &keyword(variant)]), "", expected);
    }
}

#[test]
fn precision_takes_three_variants() {
    let declaration = |qualifier: &[u8]| all(&[&many(80, 1), &plain(47, 2), qualifier, &keyword(4)]);
    for variant in 0..=27 {
        let expected = if (19..=21).contains(&variant) { None } else { Some((7, 2)) };
        unit(&declaration(&plain(29, variant)), "", expected);
    }
    // 7 comes before 8 (18 with a count of 0 above) and 9.
    unit(&declaration(&rec(29, 25, 0, 1, 0)), "", Some((7, 2)));
    unit(&declaration(&rec(29, 19, 1, 0, 0)), "", Some((9, 2)));
}

#[test]
fn count_must_not_be_0() {
    let array = all(&[&many(12, 0), &plain(20, 1), &plain(21, 0), &many(24, 0)]);
    expr(&array, "", Some((8, 3)));
    unit(&all(&[&many(80, 1), &plain(47, 5), &many(28, 0)]), "", Some((8, 2)));
    unit(&all(&[&many(80, 1), &plain(47, 5), &many(28, 1), &plain(29, 18)]), "", Some((8, 3)));
    unit(&all(&[&many(80, 1), &plain(47, 5), &many(28, 1), &plain(29, 17)]), "", None);
    // 8 comes before 9.
    unit(&all(&[&many(80, 1), &plain(47, 5), &rec(28, 0, 0, 1, 0)]), "", Some((8, 2)));
}

#[test]
fn unused_fields_must_be_0() {
    for record in [rec(2, 0, 1, 7, 0), rec(2, 0, 0, 7, 1), rec(4, 1, 0, 1, 0), rec(4, 1, 0, 0, 1), rec(1, 0, 1, 0, 1)] {
        expr(&record, "x", Some((9, 0)));
    }
    unit(&rec(80, 0, 0, 0, 1), "", Some((9, 0)));
    // A nameless struct and a declarator without name use neither a nor b.
    unit(&all(&[&many(80, 1), &plain(47, 1), &plain(42, 0), &rec(43, 0, 0, 0, 1)]), "x", Some((9, 3)));
    expr(&all(&[&many(12, 0), &plain(20, 0), &rec(23, 0, 0, 0, 1)]), "x", Some((9, 2)));
    // 9 comes before 10.
    expr(&rec(1, 0, 1, 9, 9), "x", Some((9, 0)));
}

#[test]
fn text_ends_beyond_the_names() {
    expr(&rec(1, 0, 0, 0, 1), "", Some((10, 0)));
    expr(&rec(1, 0, 0, 1, 1), "x", Some((10, 0)));
    expr(&rec(1, 0, 0, 2, 0), "x", Some((10, 0)));
    expr(&rec(1, 0, 0, u32::MAX, u32::MAX), "x", Some((10, 0)));
    // The offset is at the names' end, so the empty text is within them.
    expr(&rec(1, 0, 0, 1, 0), "x", Some((11, 0)));
}

#[test]
fn text_has_the_wrong_form() {
    for (text, good) in [("x", true), ("lf", true), ("9x", false), ("x y", false), ("int", false), ("true", false)] {
        let length = u32::try_from(text.len()).expect("short");
        expr(&rec(1, 0, 0, 0, length), text, if good { None } else { Some((11, 0)) });
    }
    expr(&rec(1, 0, 0, 0, 255), &"x".repeat(256), None);
    expr(&rec(1, 0, 0, 0, 256), &"x".repeat(256), Some((11, 0)));
    expr(&rec(5, 0, 0, 0, 3), "1.0", Some((11, 0)));
}

/// Words of section 3.6, as names of variables and of types; what it gives to Vulkan or keeps for future use stays a name, and so
/// does what the Rust module misspells (02, #102).
#[test]
fn opaque_types_are_no_names() {
    let names = ["isampler2MS", "usamplerDMSArray", "texture2D", "samplerShadow", "subpassInput", "sampler3DRect"];
    let words = ["sampler1D", "isampler2DMS", "usampler2DMSArray", "image2D", "uimageBuffer", "sampler2D"];
    for (text, refused) in names.map(|name| (name, None)).into_iter().chain(words.map(|word| (word, Some(11)))) {
        let length = u32::try_from(text.len()).expect("short");
        expr(&rec(1, 0, 0, 0, length), text, refused.map(|number| (number, 0)));
        let call = all(&[&many(12, 0), &plain(20, 0), &rec(22, 0, 0, 0, length)]);
        expr(&call, text, refused.map(|number| (number, 2)));
    }
}

/// The record with this text, which is all of the names.
fn with_text(kind: u8, variant: u8, count: u16, text: &str) -> Vec<u8> {
    rec(kind, variant, count, 0, u32::try_from(text.len()).expect("short"))
}

/// A unit of one prototype with a parameter of each variant, `void f(int,int x,const int,const int x);`; the function has the first
/// name and the parameters' names are the second.
fn prototype(function: &[u8], parameter: &[u8]) -> Vec<u8> {
    let qualifier = all(&[&many(28, 1), &plain(29, 0)]);
    let parameters = all(&[
        &all(&[&plain(41, 0), &keyword(2)]),
        &all(&[&plain(41, 1), &keyword(2), parameter]),
        &all(&[&plain(41, 2), &qualifier, &keyword(2)]),
        &all(&[&plain(41, 3), &qualifier, &keyword(2), parameter]),
    ]);
    all(&[&many(80, 1), &plain(47, 0), function, &plain(31, 0), &keyword(0), &parameters])
}

/// Functions, structs and parameters have no reserved names (02, #105); names that are nearly reserved are ordinary.
#[test]
fn reserved_names_are_not_declared() {
    for (text, refused) in
        [("gl_", 15), ("gl_Position", 15), ("gl", 0), ("GL_x", 0), ("g_l", 0), ("gl_-", 11), ("int", 11)]
    {
        let refused = |place| (refused > 0).then_some((refused, place));
        let [function, structure] = [(40, 0), (23, 1)].map(|(kind, variant)| with_text(kind, variant, 0, text));
        let void = all(&[&plain(31, 0), &keyword(0)]);
        unit(&all(&[&many(80, 1), &plain(47, 0), &function, &void]), text, refused(2));
        unit(&all(&[&many(80, 1), &plain(81, 0), &function, &void, &many(60, 0)]), text, refused(2));
        expr(&all(&[&many(12, 0), &plain(20, 0), &structure]), text, refused(2));
        let list = all(&[&plain(47, 1), &plain(42, 0), &plain(43, 0), &plain(31, 0)]);
        unit(&all(&[&many(80, 1), &list, &plain(20, 0), &structure]), text, refused(6));
        let (f, x) = (with_text(40, 0, 4, text), with_text(27, 0, 0, text));
        unit(&prototype(&f, &x), text, refused(2));
        let f = rec(40, 0, 4, u32::try_from(text.len()).expect("short"), 1);
        unit(&prototype(&f, &x), &format!("{text}f"), refused(12));
    }
}

/// Everything else may be reserved: uses, types, layout ids, declarators, blocks, conditions, and the 27 of fields (02, #105).
#[test]
fn reserved_names_are_used() {
    let text = "gl_";
    let of = |kind, variant| with_text(kind, variant, 0, text);
    let (ty, value) = (all(&[&plain(20, 0), &of(22, 0)]), all(&[&of(13, 0), &of(1, 0)]));
    expr(&value, text, None);
    let field = all(&[&many(26, 1), &ty, &of(27, 0)]);
    expr(&all(&[&many(12, 1), &plain(20, 0), &many(23, 1), &field, &value]), text, None);
    let layout = all(&[&many(28, 1), &rec(29, 18, 2, 0, 0), &of(30, 0), &of(30, 1), &value]);
    unit(&all(&[&many(80, 1), &plain(47, 5), &layout]), text, None);
    let array = all(&[&many(24, 1), &plain(25, 1), &value]);
    let list = all(&[&plain(47, 1), &many(42, 2), &of(43, 1), &plain(31, 0), &ty]);
    unit(&all(&[&many(80, 1), &list, &plain(44, 0), &of(27, 0), &plain(44, 0), &of(27, 1), &array]), text, None);
    let block = all(&[&plain(47, 3), &with_text(46, 1, 1, text), &many(28, 1), &plain(29, 7), &field, &of(27, 0)]);
    unit(&all(&[&many(80, 2), &block, &of(47, 4)]), text, None);
    let condition = all(&[&of(69, 1), &plain(31, 0), &ty, &plain(45, 0), &value]);
    let f = all(&[&plain(81, 0), &rec(40, 0, 0, 3, 1), &plain(31, 0), &keyword(0)]);
    unit(&all(&[&many(80, 1), &f, &many(60, 1), &plain(65, 0), &condition, &plain(61, 0)]), "gl_f", None);
    // A field of a parameter's struct is a field; the parameter behind it is declared.
    let struct_of = |name: Vec<u8>| all(&[&plain(41, 1), &plain(20, 0), &many(23, 1), &field, &name]);
    let prototype = |parameter: Vec<u8>| {
        all(&[&many(80, 1), &plain(47, 0), &rec(40, 0, 1, 3, 1), &plain(31, 0), &keyword(0), &struct_of(parameter)])
    };
    unit(&prototype(rec(27, 0, 0, 3, 1)), "gl_f", None);
    unit(&prototype(of(27, 0)), "gl_f", Some((15, 13)));
}

/// 15 comes directly behind 11 at a record; so before 4 and 11 of later records, and before 12, but behind an earlier record's 11.
#[test]
fn reserved_names_come_behind_wrong_forms() {
    let structure = |a, b| all(&[&many(12, 0), &plain(20, 0), &rec(23, 1, 0, a, b)]);
    expr(&structure(0, 3), "gl_", Some((15, 2)));
    expr(&structure(0, 4), "gl_", Some((10, 2)));
    expr(&structure(0, 4), "gl_-", Some((11, 2)));
    expr(&structure(0, 256), &format!("gl_{}", "x".repeat(253)), Some((11, 2)));
    expr(&structure(0, 255), &format!("gl_{}", "x".repeat(253)), Some((15, 2)));
    let fault = rec(1, 0, 0, 0, 0);
    expr(&all(&[&plain(16, 0), &fault, &structure(0, 3)]), "gl_", Some((11, 1)));
    expr(&all(&[&plain(16, 0), &structure(0, 3), &fault]), "gl_", Some((15, 3)));
    expr(&all(&[&structure(0, 3), &fault]), "gl_", Some((15, 2)));
    expr(&all(&[&many(12, 0), &plain(20, 0), &rec(23, 1, 1, 0, 3)]), "gl_", Some((15, 2)));
    // 9 comes first too: an identifier has no count.
    unit(&prototype(&rec(40, 0, 4, 3, 1), &rec(27, 0, 1, 0, 3)), "gl_f", Some((9, 12)));
}

#[test]
fn first_faulty_record_decides() {
    // Record 1 is 11, record 2 is 5: the first in preorder.
    expr(&all(&[&plain(8, 0), &rec(1, 0, 0, 0, 0), &plain(80, 0)]), "", Some((11, 1)));
    // 11 of the last record comes before 12.
    expr(&all(&[&rec(1, 0, 0, 0, 0), &int(1)]), "", Some((11, 0)));
    expr(&all(&[&int(1), &int(1), &int(1)]), "", Some((12, 1)));
}

#[test]
fn float_unlike_display_is_told_of_good_trees_only() {
    // As an f32 Display gives 0.1; as an f64 it gives the text back.
    let text = "0.100000001";
    let float = |kind| rec(kind, 0, 0, 0, 11);
    assert_eq!(ask(Root::Expr, &TIGHT, &float(5), text).text, Outcome::NotAsked);
    assert_eq!(ask(Root::Expr, &TIGHT, &float(6), text).text, Outcome::Given(format!("{text}lf")));
    expr(&all(&[&plain(8, 0), &float(5), &plain(80, 0)]), text, Some((5, 2)));
    expr(&all(&[&float(5), &int(1)]), text, Some((12, 1)));
}
