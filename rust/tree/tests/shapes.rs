//! The table of kinds says what the printer's own rows say (crates/shapes/src/rows.rt, which are proved to be the
//! documents'): for every kind and variant what it holds, its count and its children, and for every place what may stand
//! there and whether its name is declared.

mod sample;

use sample::file;
use tree::table::{form_of, Class, Form, Holds, Part};

/// A row: what a and b hold and what the count is, by their places in the enums, and the parts, how often each (1: once,
/// 2: as often as the count says) and its class.
struct Row<'a> {
    held: [u8; 2],
    parts: &'a [(u8, usize)],
}

/// The printer's rows. How they are read is crates/shapes/specs/Table.antt.
struct Shapes {
    parts: Vec<(u8, usize)>,
    rows: Vec<([u8; 2], [usize; 2])>,
    kinds: Vec<[usize; 2]>,
    allowed: Vec<[u8; 6]>,
}

/// What stands between two texts of a third.
fn between<'a>(text: &'a str, front: &str, back: &str) -> &'a str {
    let behind = text.split_once(front).unwrap_or_else(|| panic!("no {front}")).1;
    behind.split_once(back).unwrap_or_else(|| panic!("no {back} behind {front}")).0
}

/// The lines of an array or an enum, without comments.
fn lines<'a>(text: &'a str, front: &str, back: &str) -> Vec<&'a str> {
    let lines = between(text, front, back).lines().map(|line| line.trim().trim_end_matches(','));
    lines.skip(1).filter(|line| !line.is_empty() && !line.starts_with("//")).collect()
}

/// The place of a word in a list.
fn place(list: &[&str], word: &str) -> usize {
    list.iter().position(|other| *other == word).unwrap_or_else(|| panic!("no {word}"))
}

/// The value of a field in the text of a struct; `false` and `true` are 0 and 1.
fn field(text: &str, name: &str) -> usize {
    let behind = text.split_once(&format!("{name}: ")).unwrap_or_else(|| panic!("no {name}")).1;
    match behind.split([',', ' ', '\n']).next() {
        Some("false") => 0,
        Some("true") => 1,
        Some(number) => number.parse().unwrap_or_else(|_| panic!("{name} is {number}")),
        None => panic!("{name} is nothing"),
    }
}

impl Shapes {
    fn read() -> Self {
        let text = |path: &str| String::from_utf8(file(path)).expect("it is UTF-8");
        let (types, code) = (text("crates/shapes/src/lib.rt"), text("crates/shapes/src/rows.rt"));
        let cases = |name: &str| lines(&types, &format!("pub enum {name} {{"), "\n}");
        let (classes, fields, counts) = (cases("Class"), cases("Fields"), cases("Count"));
        let array = |name: &str| between(&code, &format!("static {name}: "), "\n];");
        let structs = |name: &str, of: &str| -> Vec<String> {
            array(name).split(&format!("\n    {of} {{")).skip(1).map(String::from).collect()
        };
        let part = |line: &str| {
            let times = if line.starts_with("OneOf(") { 1 } else { 2 };
            (times, place(&classes, between(line, "(Class::", ")")))
        };
        let row = |name: &str| {
            let text = between(&code, &format!("\nconst {name}: Row = Row {{"), "};");
            let case = |list: &[&str], front: &str| u8::try_from(place(list, between(text, front, ","))).expect("few");
            ([case(&fields, "Fields::"), case(&counts, "Count::")], [field(text, "first"), field(text, "end")])
        };
        let allowed = ["low", "high", "also", "least", "most", "declares"];
        let byte = |text: &str, name: &str| u8::try_from(field(text, name)).expect("a byte");
        Self {
            parts: lines(&code, "static PARTS: ", "\n];").into_iter().map(part).collect(),
            rows: lines(&code, "static ROWS: ", "\n];").into_iter().map(row).collect(),
            kinds: structs("KINDS", "Kind")
                .iter()
                .map(|text| ["last", "first"].map(|name| field(text, name)))
                .collect(),
            allowed: structs("ALLOWED", "Allowed").iter().map(|text| allowed.map(|name| byte(text, name))).collect(),
        }
    }

    /// The row of a kind and variant; none where the kind has no such variant.
    fn row(&self, kind: u8, variant: u8) -> Option<Row<'_>> {
        let [last, first] = self.kinds.get(usize::from(kind)).copied().unwrap_or_default();
        let (held, [start, end]) = *self.rows.get(first + usize::from(variant))?;
        (usize::from(variant) <= last).then(|| Row { held, parts: &self.parts[start..end] })
    }

    /// Whether a kind and variant may stand where a class is asked for.
    fn takes(&self, class: usize, kind: u8, variant: u8) -> (bool, bool) {
        let [low, high, also, least, most, _] = self.allowed[class];
        let kinds = (low..=high).contains(&kind) || kind == also;
        (kinds, kinds && (least..=most).contains(&variant))
    }

    /// Whether some place takes a kind.
    fn knows(&self, kind: u8) -> bool {
        (0..self.allowed.len()).any(|class| self.takes(class, kind, 0).0)
    }

    /// Whether a name is declared where a class is asked for.
    fn declares(&self, class: usize) -> bool {
        self.allowed[class][5] == 1
    }

    /// Whether a class of the printer's is a class of ours.
    fn same(&self, asked: usize, class: Class) -> bool {
        let same =
            |kind, variant| self.takes(asked, kind, variant) == (class.takes_kind(kind), class.takes(kind, variant));
        let takes_the_same = (0..=u8::MAX).all(|kind| (0..=u8::MAX).all(|variant| same(kind, variant)));
        takes_the_same && self.declares(asked) == class.declares()
    }
}

/// What a and b hold, and what the count is, as a row has them.
fn held(form: &Form, variant: u8) -> [u8; 2] {
    let fields = match form.holds {
        Holds::Signed | Holds::Unsigned => 1,
        Holds::Float => 4,
        _ if form.has_text(variant) => 2 + u8::from(form.declares),
        _ => 0,
    };
    let (counted, at_least_one) = form.counts();
    [fields, u8::from(counted) + u8::from(at_least_one)]
}

/// The parts that a variant has: how often each (1: once, 2: as often as the count says) and its class.
fn parts(form: &Form, variant: u8) -> Vec<(u8, Class)> {
    let part = |part: &Part| match *part {
        Part::One(class) => Some((1, class)),
        Part::Perhaps(flag, class) => form.has(variant, flag).then_some((1, class)),
        Part::Any(class) | Part::AtLeastOne(class) => Some((2, class)),
    };
    form.parts.iter().filter_map(part).collect()
}

#[test]
fn the_table_is_the_printers() {
    let shapes = Shapes::read();
    let mut compared = 0;
    for (kind, variant) in (0..=u8::MAX).flat_map(|kind| (0..=u8::MAX).map(move |variant| (kind, variant))) {
        let row = shapes.row(kind, variant).filter(|_| shapes.knows(kind));
        let form = form_of(kind, variant);
        assert_eq!(row.is_some(), form.is_some(), "{kind} {variant}");
        let (Some(row), Some(form)) = (row, form) else { continue };
        assert_eq!(row.held, held(form, variant), "{kind} {variant}");
        let parts = parts(form, variant);
        assert_eq!(row.parts.len(), parts.len(), "{kind} {variant}");
        for (&(often, asked), (times, class)) in row.parts.iter().zip(parts) {
            assert!(often == times && shapes.same(asked, class), "{kind} {variant}: {class:?}");
        }
        compared += 1;
    }
    assert_eq!(compared, 266);
}
