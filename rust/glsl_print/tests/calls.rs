//! The calls through the binding: the texts of documents 01 and 02, and each refusal with its place and every byte of the room.

use glsl_print::{
    joined, print_expr, print_expr_growing, print_unit, print_unit_growing, record, Refusal, Refused, Settings, EXPORT,
    OPEN, TIGHT,
};

/// The names of every tree here: one letter each, by its offset.
const NAMES: &[u8] = b"abcdefx1lf";

/// What a room holds before a call.
const BLANK: u8 = 0xa5;

type Record = [u8; 12];

/// A record without count, a and b.
fn plain(kind: u8, variant: u8) -> Record {
    record(kind, variant, 0, 0, 0)
}

/// A record that has a text of one letter.
fn named(kind: u8, variant: u8, letter: u8) -> Record {
    let offset = NAMES.iter().position(|&name| name == letter).expect("a letter of the names");
    record(kind, variant, 0, offset as u32, 1)
}

fn variable(letter: u8) -> Record {
    named(1, 0, letter)
}

const MINUS: Record = record(8, 15, 0, 0, 0);
const NEGATIVE: Record = record(7, 3, 0, 0, 0);
const DECREMENT: Record = record(7, 1, 0, 0, 0);
const DECREMENT_BEHIND: Record = record(15, 0, 0, 0, 0);
const TERNARY: Record = record(9, 0, 0, 0, 0);
const NOT: Record = record(7, 4, 0, 0, 0);
const ONE: Record = record(2, 0, 0, 1, 0);

/// Settings with byte 21.
fn with_byte_21(settings: Settings, byte: u8) -> [u8; 22] {
    let mut longer = [byte; 22];
    longer[..21].copy_from_slice(&settings);
    longer
}

/// An expression is printed so in TIGHT and in OPEN, and is joined or not. A byte 21 of 0 alters nothing; one of 1 alters only texts
/// of what is joined, and of these always TIGHT's.
fn expression(records: &[Record], tight: &str, open: &str, is_joined: bool) {
    let records = records.concat();
    let mut room = [BLANK; 64];
    for (settings, text) in [(TIGHT, tight), (OPEN, open)] {
        assert_eq!(print_expr(&settings, &records, NAMES, &mut room), Ok(text));
        assert_eq!(print_expr_growing(&settings, &records, NAMES, &mut Vec::new()), Ok(text));
        assert_eq!(print_expr(&with_byte_21(settings, 0), &records, NAMES, &mut room), Ok(text));
        let needed = print_expr(&with_byte_21(settings, 1), &records, NAMES, &mut room);
        assert!(needed == Ok(text) || is_joined, "{needed:?}");
    }
    assert_eq!(joined(&records, NAMES), Ok(is_joined), "{tight}");
    assert_eq!(print_expr(&EXPORT, &records, NAMES, &mut room) != Ok(tight), is_joined, "{tight}");
}

/// An expression is printed so with the needed spaces, in TIGHT and in OPEN.
fn spaced(records: &[Record], tight: &str, open: &str) {
    let records = records.concat();
    let mut room = [BLANK; 64];
    assert_eq!(print_expr(&EXPORT, &records, NAMES, &mut room), Ok(tight));
    assert_eq!(print_expr_growing(&EXPORT, &records, NAMES, &mut Vec::new()), Ok(tight));
    assert_eq!(print_expr(&with_byte_21(OPEN, 1), &records, NAMES, &mut room), Ok(open));
}

#[test]
fn expressions_of_document_01() {
    let [a, b, c, d, e, f] = [b'a', b'b', b'c', b'd', b'e', b'f'].map(variable);
    expression(&[MINUS, a, NEGATIVE, b], "a--b", "a - -b", true);
    expression(&[MINUS, DECREMENT_BEHIND, a, b], "a---b", "a-- - b", false);
    expression(&[MINUS, a, DECREMENT, b], "a---b", "a - --b", true);
    expression(&[NEGATIVE, NEGATIVE, a], "-(-a)", "-(-a)", false);
    expression(&[NEGATIVE, DECREMENT, a], "---a", "---a", true);
    expression(&[DECREMENT, NEGATIVE, a], "---a", "---a", false);
    expression(&[MINUS, a, MINUS, b, c], "a-(b-c)", "a - (b - c)", false);
    expression(&[MINUS, MINUS, a, b, c], "a-b-c", "a - b - c", false);
    expression(&[plain(14, 0), plain(11, 0), a, ONE], "(a[1])++", "(a[1])++", false);
    expression(&[record(12, 0, 1, 0, 0), f, plain(16, 0), a, b], "f(a,b)", "f(a, b)", false);
    expression(&[TERNARY, TERNARY, a, b, c, d, e], "(a?b:c)?d:e", "(a ? b : c) ? d : e", false);
    expression(&[named(6, 0, b'1')], "1.lf", "1.lf", false);
    expression(&[record(13, 0, 0, 8, 2), ONE], "1.lf", "1.lf", true);
    expression(&[record(2, 0, 0, 1 << 31, 0)], "-2147483648", "-2147483648", false);
}

/// What document 01's rows don't see of the joined question as request #103 mends it.
#[test]
fn joined_of_request_103() {
    let [plus, increment, minus_one] = [plain(7, 2), plain(7, 0), record(2, 0, 0, u32::MAX, 0)];
    let [call, field] = [plain(12, 0), named(13, 0, b'x')];
    let [a, b, c] = [b'a', b'b', b'c'].map(variable);
    expression(&[NEGATIVE, minus_one], "--1", "--1", true);
    expression(&[MINUS, a, minus_one], "a--1", "a - -1", true);
    expression(&[plus, increment, a], "+++a", "+++a", true);
    expression(&[plus, plus, a], "+(+a)", "+(+a)", false);
    expression(&[plus, NEGATIVE, a], "+-a", "+-a", false);
    expression(&[NEGATIVE, increment, a], "-++a", "-++a", false);
    expression(&[MINUS, a, plain(8, 16), NEGATIVE, b, c], "a--b*c", "a - -b * c", true);
    expression(&[NEGATIVE, call, NEGATIVE, a], "--a()", "--a()", true);
    expression(&[NEGATIVE, call, plain(16, 0), NEGATIVE, a, b], "--a,b()", "--a, b()", true);
    expression(&[NEGATIVE, DECREMENT_BEHIND, NEGATIVE, a], "-(-a)--", "-(-a)--", false);
    expression(&[field, minus_one], "-1.x", "-1.x", true);
    expression(&[field, record(3, 0, 0, 1, 0)], "1u.x", "1u.x", false);
    expression(&[field, named(5, 0, b'1')], "1..x", "1..x", false);
    expression(&[field, named(6, 0, b'1')], "1.lf.x", "1.lf.x", false);
    let dimension = [call, plain(20, 1), plain(21, 2), record(24, 0, 1, 0, 0), plain(25, 1), NEGATIVE, DECREMENT, a];
    expression(&dimension, "int[---a]()", "int[---a]()", true);
    let field = [record(26, 0, 1, 0, 0), plain(20, 0), plain(21, 2), named(27, 1, b'a'), record(24, 0, 1, 0, 0)];
    let structure = [call, plain(20, 0), record(23, 0, 1, 0, 0)].into_iter().chain(field);
    let structure: Vec<Record> = structure.chain([plain(25, 1), NEGATIVE, DECREMENT, b]).collect();
    expression(&structure, "struct {int a[---b];}()", "struct  {\n    int a[---b];\n}()", true);
}

/// The needed spaces of request #106. Operator spaces put one of their own, but only for a binary operator.
#[test]
fn needed_spaces_of_request_106() {
    let [plus, increment, minus_one] = [plain(7, 2), plain(7, 0), record(2, 0, 0, u32::MAX, 0)];
    let [add, call, field] = [plain(8, 14), plain(12, 0), named(13, 0, b'x')];
    let [a, b, c] = [b'a', b'b', b'c'].map(variable);
    spaced(&[MINUS, a, NEGATIVE, b], "a- -b", "a - -b");
    spaced(&[MINUS, a, DECREMENT, b], "a- --b", "a - --b");
    spaced(&[MINUS, DECREMENT_BEHIND, a, b], "a---b", "a-- - b");
    spaced(&[add, a, increment, b], "a+ ++b", "a + ++b");
    spaced(&[add, a, NEGATIVE, b], "a+-b", "a + -b");
    spaced(&[NEGATIVE, DECREMENT, a], "- --a", "- --a");
    spaced(&[DECREMENT, NEGATIVE, a], "---a", "---a");
    spaced(&[plus, increment, a], "+ ++a", "+ ++a");
    spaced(&[NEGATIVE, NEGATIVE, a], "-(-a)", "-(-a)");
    spaced(&[MINUS, a, plain(8, 16), NEGATIVE, b, c], "a- -b*c", "a - -b * c");
    spaced(&[MINUS, a, NEGATIVE, DECREMENT, b], "a- - --b", "a - - --b");
    spaced(&[field, ONE], "1 .x", "1 .x");
    spaced(&[field, field, ONE], "1 .x.x", "1 .x.x");
    spaced(&[field, record(3, 0, 0, 1, 0)], "1u.x", "1u.x");
    spaced(&[field, named(5, 0, b'1')], "1..x", "1..x");
    // What is not sound has them too.
    spaced(&[MINUS, a, minus_one], "a- -1", "a - -1");
    spaced(&[NEGATIVE, minus_one], "- -1", "- -1");
    spaced(&[field, minus_one], "-1 .x", "-1 .x");
    spaced(&[NEGATIVE, call, NEGATIVE, a], "- -a()", "- -a()");
    let dimension = [call, plain(20, 1), plain(21, 2), record(24, 0, 1, 0, 0), plain(25, 1), NEGATIVE, DECREMENT, a];
    spaced(&dimension, "int[- --a]()", "int[- --a]()");
}

#[test]
fn units_of_documents_01_and_02() {
    let unit = |settings: &[u8], records: &[Record], text| {
        let records = records.concat();
        assert_eq!(print_unit(settings, &records, NAMES, &mut [BLANK; 64]), Ok(text));
        assert_eq!(print_unit_growing(settings, &records, NAMES, &mut Vec::new()), Ok(text));
    };
    unit(&TIGHT, &[plain(80, 0)], "");
    unit(&OPEN, &[plain(80, 0)], "");
    unit(&OPEN, &X, "int x;");
    let [keyword, body] = [plain(21, 0), record(60, 0, 1, 0, 0)];
    let head = [record(80, 0, 1, 0, 0), plain(81, 0), named(40, 0, b'f'), plain(31, 0), plain(20, 0), keyword, body];
    let function = [&head[..], &[plain(68, 4), NEGATIVE, variable(b'a')]].concat();
    unit(&TIGHT, &function, "void f(){return -a;}");
    unit(&OPEN, &function, "void f() {\n    return -a;\n}\n");
    unit(&EXPORT, &function, "void f(){return -a;}");
    // The expressions of a unit have the needed spaces too.
    let function = [&head[..], &[plain(68, 4), NEGATIVE, DECREMENT, variable(b'a')]].concat();
    unit(&TIGHT, &function, "void f(){return ---a;}");
    unit(&with_byte_21(TIGHT, 0), &function, "void f(){return ---a;}");
    unit(&EXPORT, &function, "void f(){return - --a;}");
    unit(&with_byte_21(OPEN, 1), &function, "void f() {\n    return - --a;\n}\n");
    let function = [&head[..], &[plain(68, 4), MINUS, variable(b'a'), DECREMENT, variable(b'b')]].concat();
    unit(&EXPORT, &function, "void f(){return a- --b;}");
    unit(&with_byte_21(OPEN, 1), &function, "void f() {\n    return a - --b;\n}\n");
}

/// The unit `int x;`.
const X: [Record; 7] = [
    record(80, 0, 1, 0, 0),
    record(47, 1, 0, 0, 0),
    record(42, 0, 0, 0, 0),
    record(43, 1, 0, 6, 1),
    record(31, 0, 0, 0, 0),
    record(20, 0, 0, 0, 0),
    record(21, 2, 0, 0, 0),
];

#[test]
fn bytes_behind_a_text_are_untouched() {
    let mut room = [BLANK; 9];
    assert_eq!(print_unit(&OPEN, &X.concat(), NAMES, &mut room), Ok("int x;"));
    assert_eq!(room, *b"int x;\xa5\xa5\xa5");
}

#[test]
fn a_room_that_is_a_byte_too_small_is_refused() {
    let mut room = [BLANK; 6];
    let refused = Refused { refusal: Refusal::RoomTooSmall, place: 6 };
    assert_eq!(print_unit(&OPEN, &X.concat(), NAMES, &mut room[..5]), Err(refused));
    assert_eq!(print_unit(&OPEN, &X.concat(), NAMES, &mut []), Err(refused));
    assert_eq!(room, [BLANK; 6]);
    assert_eq!(print_unit(&OPEN, &X.concat(), NAMES, &mut room), Ok("int x;"));
}

/// A needed space counts: `a- -b` has five bytes.
#[test]
fn a_room_without_a_byte_for_the_needed_space_is_refused() {
    let records = [MINUS, variable(b'a'), NEGATIVE, variable(b'b')].concat();
    let mut room = [BLANK; 6];
    let refused = Refused { refusal: Refusal::RoomTooSmall, place: 5 };
    assert_eq!(print_expr(&EXPORT, &records, NAMES, &mut room[..4]), Err(refused));
    assert_eq!(print_expr(&EXPORT, &records, NAMES, &mut []), Err(refused));
    assert_eq!(room, [BLANK; 6]);
    assert_eq!(print_expr(&TIGHT, &records, NAMES, &mut room[..4]), Ok("a--b"));
    assert_eq!(print_expr(&EXPORT, &records, NAMES, &mut room[..5]), Ok("a- -b"));
    assert_eq!(room, *b"a- -b\xa5");
}

#[test]
fn a_room_grows_as_far_as_needed_and_never_shrinks() {
    let mut room = vec![BLANK; 2];
    assert_eq!(print_unit_growing(&OPEN, &X.concat(), NAMES, &mut room), Ok("int x;"));
    assert_eq!(room, b"int x;");
    assert_eq!(print_expr_growing(&OPEN, &ONE, NAMES, &mut room), Ok("1"));
    assert_eq!(room, b"1nt x;");
}

/// An expression is refused so, by the print and, where that takes no settings, by the joined question.
fn refused(settings: &[u8], records: &[u8], names: &[u8], refusal: Refusal, place: usize) {
    let refused = Refused { refusal, place };
    let mut room = [BLANK; 64];
    assert_eq!(print_expr(settings, records, names, &mut room), Err(refused));
    assert_eq!(room, [BLANK; 64], "{refused}");
    let mut room = vec![BLANK; 3];
    assert_eq!(print_expr_growing(settings, records, names, &mut room), Err(refused));
    assert_eq!(room, [BLANK; 3], "{refused}");
    if refusal != Refusal::SettingsOutOfRange {
        assert_eq!(joined(records, names), Err(refused));
    }
}

#[test]
fn bad_settings_are_refused() {
    let a = variable(b'a');
    let mut beyond = with_byte_21(OPEN, 1);
    beyond[0] = 3;
    for settings in [&[], &OPEN[..20], &[0; 23], &beyond[..21], &beyond, &with_byte_21(OPEN, 2)] {
        refused(settings, &a, NAMES, Refusal::SettingsOutOfRange, 0);
        // Before what else is wrong.
        refused(settings, &[], NAMES, Refusal::SettingsOutOfRange, 0);
    }
}

#[test]
fn bad_sizes_are_refused() {
    let a = variable(b'a');
    for records in [vec![], a[..11].to_vec(), a.repeat(4_097)] {
        refused(&OPEN, &records, NAMES, Refusal::RecordsOutOfSize, 0);
    }
    refused(&OPEN, &a, &[b'a'; 32_769], Refusal::NamesOutOfSize, 0);
    assert_eq!(print_expr(&OPEN, &a, &[b'a'; 32_768], &mut [0; 1]), Ok("a"));
}

#[test]
fn bad_records_are_refused_where_they_stand() {
    let bad = |records: &[Record], refusal, place| refused(&OPEN, &records.concat(), NAMES, refusal, place);
    let [a, keyword] = [variable(b'a'), plain(21, 6)];
    bad(&[MINUS, a], Refusal::RecordMissing, 2);
    bad(&[MINUS, a, plain(80, 0)], Refusal::KindNotAllowed, 2);
    bad(&[[NOT].repeat(200), vec![a]].concat(), Refusal::TooDeep, 200);
    bad(&[MINUS, a, plain(7, 6)], Refusal::VariantOutOfRange, 2);
    bad(&[plain(12, 0), plain(20, 1), keyword, plain(24, 0)], Refusal::CountMissing, 3);
    bad(&[MINUS, record(4, 0, 0, 1, 0)], Refusal::UnusedSet, 1);
    bad(&[MINUS, a, record(1, 0, 0, 9, 2)], Refusal::TextBeyond, 2);
    bad(&[MINUS, variable(b'1')], Refusal::TextMisformed, 1);
    bad(&[a, a], Refusal::RecordsLeftOver, 1);
}

/// The names of the trees of request #105: `gl_x` at 0, in which `gl_` and `gl` begin too, and `x` at 3. Five bytes are no name.
const WITH_RESERVED: &[u8] = b"gl_x-";

/// A record with the text that begins at 0 and has so many bytes.
fn front(kind: u8, variant: u8, length: u32) -> Record {
    record(kind, variant, 0, 0, length)
}

/// Units that declare the name of so many bytes, as a function's in a prototype and in a definition, as a parameter's and as a
/// struct's; each with the place of its record and the text in TIGHT, where NAME stands for it.
fn declaring(length: u32) -> [(Vec<Record>, usize, &'static str); 4] {
    let [full, bare, void] = [plain(31, 0), plain(20, 0), plain(21, 0)];
    let [unit, x] = [record(80, 0, 1, 0, 0), record(40, 0, 1, 3, 1)];
    let parameter = [plain(41, 1), bare, plain(21, 2), front(27, 0, length)];
    [
        (vec![unit, plain(47, 0), front(40, 0, length), full, bare, void], 2, "void NAME();"),
        (vec![unit, plain(81, 0), front(40, 0, length), full, bare, void, plain(60, 0)], 2, "void NAME(){}"),
        ([&[unit, plain(47, 0), x, full, bare, void][..], &parameter].concat(), 9, "void x(int NAME);"),
        (vec![unit, plain(47, 1), plain(42, 0), plain(43, 0), full, bare, front(23, 1, length)], 6, "struct NAME{};"),
    ]
}

/// A unit is refused so, whatever is left over behind it and however small the room is.
fn unit_refused(unit: &[Record], names: &[u8], refusal: Refusal, place: usize) {
    let refused = Refused { refusal, place };
    for records in [unit.concat(), [unit, &[plain(80, 0)]].concat().concat()] {
        for length in [64, 0] {
            let mut room = [BLANK; 64];
            assert_eq!(print_unit(&OPEN, &records, names, &mut room[..length]), Err(refused));
            assert_eq!(room, [BLANK; 64], "{refused}");
        }
    }
}

#[test]
fn reserved_names_are_refused_where_they_are_declared() {
    for length in [3, 4] {
        for (unit, place, _) in declaring(length) {
            unit_refused(&unit, WITH_RESERVED, Refusal::ReservedDeclared, place);
        }
        let call = [plain(12, 0), plain(20, 0), front(23, 1, length)].concat();
        refused(&OPEN, &call, WITH_RESERVED, Refusal::ReservedDeclared, 2);
    }
}

/// Before 15 come 10 and 11. A name that does not begin with `gl_` can be declared, and case counts.
#[test]
fn other_names_are_judged_as_before_where_they_are_declared() {
    for (length, refusal) in [(6, Refusal::TextBeyond), (5, Refusal::TextMisformed)] {
        for (unit, place, _) in declaring(length) {
            unit_refused(&unit, WITH_RESERVED, refusal, place);
        }
    }
    for (length, names, name) in [(2, WITH_RESERVED, "gl"), (4, b"GL_x", "GL_x"), (4, b"glxx", "glxx")] {
        for (unit, _, text) in declaring(length) {
            let printed = print_unit_growing(&TIGHT, &unit.concat(), names, &mut Vec::new()).map(str::to_owned);
            assert_eq!(printed, Ok(text.replace("NAME", name)));
        }
    }
}

/// Every other record may have a reserved name.
#[test]
fn reserved_names_are_printed_where_they_are_used() {
    let name = |kind, variant| front(kind, variant, 4);
    let [full, bare, int] = [plain(31, 0), plain(20, 0), plain(21, 2)];
    let field = [record(26, 0, 1, 0, 0), bare, name(22, 0), name(27, 0)];
    let layout = [record(28, 0, 1, 0, 0), record(29, 18, 1, 0, 0), name(30, 0)];
    let block = [&[plain(47, 3), record(46, 1, 1, 0, 4)], &layout[..], &field, &[name(27, 0)]].concat();
    let variables = [plain(47, 1), record(42, 0, 1, 0, 0), name(43, 1), full, bare, int, plain(44, 0), name(27, 0)];
    let condition = [name(69, 1), full, bare, plain(21, 1), plain(45, 0), name(13, 0), name(1, 0)];
    let head = [plain(81, 0), record(40, 0, 0, 3, 1), full, bare, plain(21, 0), record(60, 0, 1, 0, 0), plain(65, 0)];
    let function = [&head[..], &condition, &[plain(68, 1)]].concat();
    let unit = [&[record(80, 0, 4, 0, 0), name(47, 4)][..], &block, &variables, &function].concat().concat();
    let text =
        "invariant gl_x;layout(gl_x) gl_x{gl_x gl_x;}gl_x;int gl_x,gl_x;void x(){while(bool gl_x=gl_x.gl_x)break;}";
    assert_eq!(print_unit_growing(&TIGHT, &unit, WITH_RESERVED, &mut Vec::new()), Ok(text));
    let call = [plain(12, 0), bare, name(22, 0)].concat();
    assert_eq!(print_expr(&TIGHT, &call, WITH_RESERVED, &mut [BLANK; 64]), Ok("gl_x()"));
    assert_eq!(joined(&call, WITH_RESERVED), Ok(false));
}

/// Runs a call in a thread with the stack that a caller is asked for.
fn on_the_stack_asked_for<T: Send + 'static>(call: impl FnOnce() -> T + Send + 'static) -> T {
    let thread = std::thread::Builder::new().stack_size(192 << 10).spawn(call).expect("a thread");
    thread.join().expect("it ends")
}

#[test]
fn the_deepest_unit_fits_the_stack_that_is_asked_for() {
    // A function whose body is compounds in one another: unit, function, compounds, the last at depth 200.
    let head = [&X[..1], &[plain(81, 0), named(40, 0, b'f'), plain(31, 0), plain(20, 0), plain(21, 0)]].concat();
    let compounds = [vec![record(60, 0, 1, 0, 0); 197], vec![plain(60, 0)]].concat();
    let records = [head, compounds].concat().concat();
    let print = move || print_unit_growing(&TIGHT, &records, NAMES, &mut Vec::new()).map(str::len);
    assert_eq!(on_the_stack_asked_for(print), Ok("void f()".len() + 2 * 198));
}

#[test]
fn the_deepest_expression_fits_the_stack_that_is_asked_for() {
    // `!!..a`, and `- ---- --..a`, in which every minus needs a space but the last.
    let [not, minus] = [vec![NOT; 199], [[NEGATIVE, DECREMENT].repeat(99), vec![NEGATIVE]].concat()];
    for (operators, lengths, is_joined) in [(not, [200, 200], false), (minus, [299, 299 + 99], true)] {
        let records = [operators, vec![variable(b'a')]].concat().concat();
        let all = move || {
            let length = |settings| print_expr_growing(settings, &records, NAMES, &mut Vec::new()).map(str::len);
            ([length(&TIGHT), length(&EXPORT)], joined(&records, NAMES))
        };
        assert_eq!(on_the_stack_asked_for(all), (lengths.map(Ok), Ok(is_joined)));
    }
}
