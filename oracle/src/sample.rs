//! The stored samples: some hundred trees with one root each, some hundred questions for a record's name ([`names`]), and
//! states that two methods leave ([`states`]), with the oracle's answers, which a Rattle program replays (crates/replay).
//!
//! A file is records of twelve bytes and byte strings. Its first record has the number of cases in `a`, and its kind says
//! what is asked: 80 the print of a unit, 0 that of an expression, 1 a record's name, 2 a state. A case is three records,
//! then its settings, records, names and the room behind the call, or the name:
//!
//! | record | kind | a | b |
//! |---|---|---|---|
//! | 0 | the print's refusal, 0 for none | length of the settings | length of the records |
//! | 1 | the joined question's refusal, 0 for none | length of the names | length of the room |
//! | 2 | 0 | the print's length or place | 1 joined, 0 not, or the place |
//!
//! The joined question is not asked about units: both of its numbers are 0. A question for a name has no settings, no
//! refusals, and in record 2 the low and the high half of the index.

pub mod names;
pub mod states;

use crate::answer::{answer, Outcome, Question, Root};
use crate::cases::{cover, damage, limits, reserved, tight};
use crate::grow;
use crate::joined::{Joint, JOINTS};
use crate::random::Random;
use crate::read;
use crate::record::Record;
use crate::refusal::Refusal;
use crate::settings;
use crate::tokens;
use crate::tree::{all, declared, function, int, keyword, many, named, plain, rec, var};
use crate::words;
use std::collections::{BTreeMap, BTreeSet};

/// What a room holds before a call.
const BLANK: u8 = 0xa5;
/// The room of a print that is refused for its input.
const SPARE_ROOM: usize = 8;
/// Grown trees from which the smallest ones with each kind and variant are taken.
const GROWN: u64 = 60_000;
/// Damages of each tree from which the refused ones are taken.
const DAMAGES: usize = 400;
/// Trees that are taken for each sort of joint, because they are joined by it alone. Each is asked for twice.
const JOINED: usize = 20;
/// Refusals are taken at the first so many places.
const PLACES: usize = 12;
/// The first record's kind in a sample of units.
const UNITS: u8 = 80;
/// Why a number fits its field.
const SMALL: &str = "inputs are small";

/// A refusal's number, 0 for none, and the value beside it.
type Numbers = (u8, usize);

/// A call of each sort with its answers.
pub struct Case {
    question: Question,
    print: Numbers,
    joined: Numbers,
    /// Every byte of the room behind the print.
    room: Vec<u8>,
}

/// A room beside the text's length.
#[derive(Clone, Copy)]
enum Room {
    OneShort,
    Exact,
    Larger,
}

impl Case {
    /// Nothing where the Rust module must not be asked.
    fn new(question: Question, room: Room) -> Option<Self> {
        let answer = answer(&question);
        let (print, room) = match answer.text {
            Outcome::NotAsked => return None,
            Outcome::Refused(refusal) => (numbers(refusal), blank(SPARE_ROOM)),
            Outcome::Given(text) => {
                let length = text.len();
                match room {
                    Room::OneShort => ((13, length), blank(length.checked_sub(1)?)),
                    Room::Exact => ((0, length), text.into_bytes()),
                    Room::Larger => ((0, length), [text.into_bytes(), blank(SPARE_ROOM)].concat()),
                }
            }
        };
        let joined = match answer.joined {
            Some(Outcome::NotAsked) => return None,
            Some(Outcome::Refused(refusal)) => numbers(refusal),
            Some(Outcome::Given(is_joined)) => (0, usize::from(is_joined)),
            None => (0, 0),
        };
        Some(Self { question, print, joined, room })
    }

    fn to_bytes(&self) -> Vec<u8> {
        let Question { settings, records, names, .. } = &self.question;
        let head = |kind, a, b| {
            let [a, b] = [a, b].map(|number| u32::try_from(number).expect(SMALL));
            rec(kind, 0, 0, a, b)
        };
        all(&[
            &head(self.print.0, settings.len(), records.len()),
            &head(self.joined.0, names.len(), self.room.len()),
            &head(0, self.print.1, self.joined.1),
            settings,
            records,
            names,
            &self.room,
        ])
    }
}

fn numbers(refusal: Refusal) -> Numbers {
    (refusal.number(), refusal.place)
}

fn blank(length: usize) -> Vec<u8> {
    vec![BLANK; length]
}

/// The file of a root and a seed.
pub fn file(root: Root, seed: u64) -> Vec<u8> {
    let cases = cases(root, seed);
    let kind = match root {
        Root::Unit => UNITS,
        Root::Expr => 0,
    };
    [first(kind, cases.len())].into_iter().chain(cases.iter().map(Case::to_bytes)).collect::<Vec<_>>().concat()
}

/// The first record of a file.
fn first(kind: u8, cases: usize) -> Vec<u8> {
    rec(kind, 0, 0, u32::try_from(cases).expect(SMALL), 0)
}

/// The cases of a root and a seed: the smallest trees with each kind and variant in three rooms, trees of all sizes that are
/// joined in each way, every value of every setting, every refusal in several places, the limits, and reserved names. In units
/// also the words that are no names since request #102.
pub fn cases(root: Root, seed: u64) -> Vec<Case> {
    let trees = cover::smallest(root, seed, GROWN);
    let covering = trees.iter().cloned().chain((root == Root::Unit).then(int_x));
    let covering =
        covering.flat_map(|tree| [Room::OneShort, Room::Exact, Room::Larger].map(|room| (tree.clone(), room)));
    let others = joined(root, seed).chain(each_setting(root)).chain(refused(&trees, seed)).chain(at_limits(root));
    let others =
        others.chain((root == Root::Unit).then(words_as_names).into_iter().flatten()).chain(reserved_names(root));
    covering.chain(others.map(|question| (question, Room::Larger))).filter_map(|(q, room)| Case::new(q, room)).collect()
}

/// `int x;`, for which document 01 names the rooms of 6 and 5 bytes.
fn int_x() -> Question {
    Question {
        settings: settings::OPEN.to_vec(),
        ..tight(Root::Unit, all(&[&many(80, 1), &declared(0), &keyword(2)]), "x")
    }
}

/// Grown trees that are joined, for each sort of joint some that are joined by it alone: without needed spaces and with them.
fn joined(root: Root, seed: u64) -> impl Iterator<Item = Question> {
    JOINTS.into_iter().flat_map(move |joint| {
        let grown = (0..).map(move |case| grow::rooted(root, seed, case));
        let trees = grown.filter(move |question| is_joined_only_by(question, joint)).take(JOINED);
        trees.flat_map(|tree| [0, 1].map(|byte| with_setting(&tree, settings::SPACES_WHERE_NEEDED, byte)))
    })
}

/// Whether a question's tree is joined by this sort alone.
fn is_joined_only_by(question: &Question, joint: Joint) -> bool {
    let Question { root, records, names, .. } = question;
    let tokens = match root {
        Root::Unit => read::unit(records, names).map(|whole| tokens::unit(&whole.tree, false)),
        Root::Expr => read::expr(records, names).map(|whole| tokens::expr(&whole.tree)),
    };
    tokens.is_ok_and(|tokens| tokens.are_joined_only_by(joint))
}

/// The question with this value of a byte of its settings, which may be the one behind them.
fn with_setting(question: &Question, at: usize, value: u8) -> Question {
    let mut question = question.clone();
    let length = question.settings.len().max(at + 1);
    question.settings.resize(length, 0);
    question.settings[at] = value;
    question
}

/// A text on which every setting is seen that a tree with this root can see.
fn telling(root: Root) -> Question {
    match root {
        Root::Expr => tight(root, telling_expr(), "abcS"),
        Root::Unit => tight(root, telling_unit(), "abcfS"),
    }
}

/// `struct S{const int a[b+1],c;int a;}(a,b---1.b)`.
fn telling_expr() -> Vec<u8> {
    let array = all(&[&many(24, 1), &plain(25, 1), &plain(8, 14), &var(1), &int(1)]);
    let first = all(&[&rec(26, 1, 2, 0, 0), &many(28, 1), &plain(29, 0), &keyword(2), &named(27, 1, 0), &array]);
    let second = all(&[&many(26, 1), &keyword(2), &named(27, 0, 0)]);
    let structure = all(&[&plain(20, 0), &rec(23, 1, 2, 3, 1), &first, &named(27, 0, 2), &second]);
    all(&[&many(12, 2), &structure, &var(0), &joined_thrice()])
}

/// `b---1.b`, which needs three spaces: `b- - -1 .b`.
fn joined_thrice() -> Vec<u8> {
    all(&[&plain(8, 15), &var(1), &plain(7, 3), &named(13, 0, 1), &int(u32::MAX)])
}

/// `struct S{int a;float b;}c;`, `void f(){int a[]={1,2};for(;a;a++){b;}if(a){b;}else{c;}switch(a){case 1:break;default:}return
/// b---1.b;}` and `invariant a;`.
fn telling_unit() -> Vec<u8> {
    let field = |keyword_: u8, name: u32| all(&[&many(26, 1), &keyword(keyword_), &named(27, 0, name)]);
    let structure = all(&[&declared(2), &plain(20, 0), &rec(23, 1, 2, 4, 1), &field(2, 0), &field(4, 1)]);
    let first = all(&[&plain(47, 1), &plain(42, 0), &named(43, 7, 0), &plain(31, 0), &keyword(2)]);
    let members = all(&[&rec(45, 1, 2, 0, 0), &plain(45, 0), &int(1), &plain(45, 0), &int(2)]);
    let list = all(&[&first, &many(24, 1), &plain(25, 0), &members]);
    let block = |name| all(&[&many(60, 1), &plain(61, 1), &var(name)]);
    let head = all(&[&plain(67, 3), &plain(70, 0), &plain(69, 0), &var(0), &plain(14, 0), &var(0)]);
    let choice = all(&[&plain(62, 1), &var(0), &block(1), &block(2)]);
    let switch = all(&[&many(63, 3), &var(0), &plain(64, 1), &int(1), &plain(68, 1), &plain(64, 0)]);
    let difference = all(&[&plain(68, 4), &joined_thrice()]);
    let body = all(&[&many(60, 5), &list, &head, &block(1), &choice, &switch, &difference]);
    all(&[&many(80, 3), &structure, &function(3), &body, &named(47, 4, 0)])
}

/// The settings of which one byte at a time is changed: tight ones, which collapse a unit's statements, and OPEN with needed
/// spaces.
fn bases(root: Root) -> [Question; 2] {
    let tight = with_setting(&telling(root), settings::COLLAPSE, u8::from(root == Root::Unit));
    [tight, Question { settings: settings::longer(settings::OPEN, 1).to_vec(), ..telling(root) }]
}

/// Every value of every byte of the settings and one beyond it, and other lengths.
fn each_setting(root: Root) -> impl Iterator<Item = Question> {
    let beyond = settings::GREATEST.into_iter().enumerate().map(|(at, greatest)| (at, greatest + 1));
    let values = settings::values().chain(beyond);
    let questions = bases(root)
        .into_iter()
        .flat_map(move |base| values.clone().map(move |(at, value)| with_setting(&base, at, value)));
    let lengths = [0, settings::SIZE - 1, settings::LONGER + 1].map(|length| vec![0; length]);
    questions.chain(lengths.map(|settings| Question { settings, ..telling(root) }))
}

/// The shortest damaged trees that are refused with each number at each place.
fn refused(trees: &[Question], seed: u64) -> impl Iterator<Item = Question> {
    let mut shortest: BTreeMap<Numbers, Question> = BTreeMap::new();
    let mut random = Random::new(seed, 0);
    let length = |question: &Question| question.records.len() + question.names.len();
    for question in trees.iter().flat_map(|tree| [tree; DAMAGES]).map(|tree| damage::once(tree, &mut random)) {
        let Some(refusal) = read::refusal(&question).filter(|refusal| refusal.place < PLACES) else {
            continue;
        };
        let best = shortest.entry(numbers(refusal)).or_insert_with(|| question.clone());
        if length(&question) < length(best) {
            *best = question;
        }
    }
    shortest.into_values()
}

/// At the limits and beyond: depth, where signs may meet; of expressions also number of records, size of the names,
/// lengths of texts and their ends, integers.
fn at_limits(root: Root) -> impl Iterator<Item = Question> {
    let deep = limits::around_deepest().filter(move |[deepest, _]| deepest.root == root).step_by(3).flatten();
    let deep = deep.map(|question| Question { settings: settings::EXPORT.to_vec(), ..question });
    deep.chain((root == Root::Expr).then(expr_limits).into_iter().flatten())
}

fn expr_limits() -> impl Iterator<Item = Question> {
    let most = u16::try_from(read::MOST_RECORDS).expect(SMALL);
    let wide = [most, most + 1].map(limits::flat).map(|[call, _]| call).into_iter();
    let names = [0, 1].map(|more| expr(var(0), &vec![b'x'; read::MOST_NAMES + more]));
    let texts = [(1, b'x', words::LONGEST_NAME), (6, b'1', words::LONGEST_FLOAT)];
    let texts = texts.into_iter().flat_map(|(kind, byte, most)| {
        [most, most + 1]
            .map(|length| expr(rec(kind, 0, 0, 0, u32::try_from(length).expect(SMALL)), &vec![byte; length]))
    });
    let ends = [(0, 2), (1, 1), (1, 2), (2, 0), (2, u32::MAX), (u32::MAX, u32::MAX)];
    let ends = ends.map(|(a, b)| expr(rec(1, 0, 0, a, b), b"xy"));
    let integers = [0, 9, 10, i32::MAX.cast_unsigned(), i32::MIN.cast_unsigned(), u32::MAX];
    let integers = integers.into_iter().flat_map(|bits| [2, 3].map(|kind| expr(rec(kind, 0, 0, bits, 0), b"")));
    wide.chain(names).chain(texts).chain(ends).chain(integers)
}

/// `invariant sampler1D;`: each word that was a name before request #102, which is refused, and names that look like one.
fn words_as_names() -> impl Iterator<Item = Question> {
    let words = words::TYPE_KEYWORDS[words::FIRST_KEYWORDS..].iter().chain(&limits::LIKE_OPAQUE_TYPES);
    words.map(|word| {
        let length = u32::try_from(word.len()).expect(SMALL);
        tight(Root::Unit, all(&[&many(80, 1), &rec(47, 4, 0, 0, length)]), *word)
    })
}

/// A reserved name (02, #105) wherever one is declared, which is refused; for the first record of each such kind and variant also
/// one that ends beyond the names, and one among other faults. And where it may stand: once for each kind and variant, and for
/// every identifier (27), which may be a parameter's.
fn reserved_names(root: Root) -> Vec<Question> {
    let mut seen = BTreeSet::new();
    let mut questions = Vec::new();
    for spot in reserved::spots(root) {
        let (question, Record { kind, variant, .. }) = (spot.with(b"gl_x"), spot.record());
        let is_refused = read::refusal(&question).is_some();
        let is_first = seen.insert((kind, variant, is_refused));
        if is_first || is_refused || kind == 27 {
            questions.push(question);
        }
        if is_first && is_refused {
            questions.push(spot.with_end_beyond_names());
            questions.extend(spot.among_faults().map(|spot| spot.with(b"gl_")));
        }
    }
    questions
}

fn expr(records: Vec<u8>, names: &[u8]) -> Question {
    tight(Root::Expr, records, names)
}

#[cfg(test)]
mod tests {
    use super::*;
    use crate::refusal;

    const ROOTS: [Root; 2] = [Root::Expr, Root::Unit];

    #[test]
    fn the_samples_have_everything() {
        for (root, sizes) in [(Root::Expr, 500..=1_400), (Root::Unit, 500..=1_400)] {
            let cases = cases(root, 1);
            assert!(sizes.contains(&cases.len()), "{root:?}: {}", cases.len());
            let numbers: BTreeSet<u8> = cases.iter().map(|case| case.print.0).collect();
            let all = [0].into_iter().chain(refusal::NUMBERS).filter(|&number| root == Root::Expr || number != 3);
            assert_eq!(numbers, all.collect());
            let good = || cases.iter().filter(|case| case.print.0 == 0).map(|case| &case.question);
            let pairs: BTreeSet<_> = good().flat_map(cover::records).map(|r| (r.kind, r.variant)).collect();
            assert_eq!(pairs, cover::pairs(root).collect());
            let values: BTreeSet<_> = good().flat_map(|q| q.settings.iter().copied().enumerate()).collect();
            assert_eq!(values, settings::values().collect());
        }
    }

    #[test]
    fn the_samples_have_every_sort_of_joint_and_none() {
        for root in ROOTS {
            let cases = cases(root, 1);
            for (joint, byte) in JOINTS.into_iter().flat_map(|joint| [(joint, 0), (joint, 1)]) {
                let is_asked = |q: &Question| q.settings.get(settings::SPACES_WHERE_NEEDED) == Some(&byte);
                let alone = cases.iter().filter(|case| is_asked(&case.question) && case.print.0 == 0);
                let alone = alone.filter(|case| is_joined_only_by(&case.question, joint));
                assert!(alone.count() >= JOINED, "{root:?}, {joint:?} at {byte}");
            }
        }
        let cases = cases(Root::Expr, 1);
        let [apart, joined] = [(0, 0), (0, 1)].map(|said| cases.iter().filter(|case| case.joined == said).count());
        assert!(apart >= JOINED && joined >= 6 * JOINED);
    }

    /// The first 68 are words, at the second record; the others are names.
    #[test]
    fn words_are_refused_as_names_and_names_like_them_are_not() {
        let cases = cases(Root::Unit, 1);
        let case = |question| cases.iter().find(|case| case.question == question).expect("it is among the cases");
        let prints: Vec<Numbers> = words_as_names().map(|question| case(question).print).collect();
        let (words, names) = prints.split_at(68);
        assert!(words.iter().all(|print| *print == (11, 1)));
        assert!(names.iter().all(|(number, _)| *number == 0) && names.len() == limits::LIKE_OPAQUE_TYPES.len());
    }

    /// Kind and variant of the record at a place.
    fn record_at(question: &Question, place: usize) -> (u8, u8) {
        cover::records(question).nth(place).map(|record| (record.kind, record.variant)).expect("it is a record's place")
    }

    #[test]
    fn reserved_names_are_used_and_refused_by_every_kind_that_has_names() {
        for root in ROOTS {
            let cases = cases(root, 1);
            let refused = cases.iter().filter(|case| case.print.0 == 15);
            let refused: BTreeSet<_> = refused.map(|case| record_at(&case.question, case.print.1)).collect();
            assert_eq!(refused, reserved::declaring_pairs(root).collect());
            let used =
                cases.iter().filter(|case| case.print.0 == 0).flat_map(|case| reserved::pairs_in(&case.question));
            assert_eq!(used.collect::<BTreeSet<_>>(), reserved::using_pairs(root).collect());
        }
        // The joined question gives the same refusal at the same place.
        let cases = cases(Root::Expr, 1);
        assert!(cases.iter().any(|case| case.joined.0 == 15 && case.joined == case.print));
    }

    #[test]
    fn int_x_is_in_rooms_of_6_and_5_bytes() {
        let cases: Vec<_> = cases(Root::Unit, 1).into_iter().filter(|case| case.question == int_x()).collect();
        let answers: Vec<_> = cases.iter().map(|case| (case.print, case.room.as_slice())).collect();
        assert_eq!(answers[..2], [((13, 6), [BLANK; 5].as_slice()), ((0, 6), b"int x;")]);
    }

    fn text(question: &Question) -> Option<String> {
        match answer(question).text {
            Outcome::Given(text) => Some(text),
            _ => None,
        }
    }

    #[test]
    fn every_setting_of_an_expression_is_seen() {
        let texts: BTreeSet<String> = each_setting(Root::Expr).filter_map(|question| text(&question)).collect();
        assert!(texts.len() > 30, "{}", texts.len());
        assert!(texts.iter().any(|text| text.ends_with("(a,b---1.b)")));
        assert!(texts.iter().any(|text| text.ends_with("(a,b- - -1 .b)")));
        assert!(texts.iter().any(|text| text.ends_with("(a, b - - -1 .b)")));
    }

    /// Each value of a byte has its own texts, but for struct_declaration_terminator, which only show_struct reads.
    #[test]
    fn every_setting_of_a_unit_is_seen() {
        for (at, greatest) in settings::GREATEST.into_iter().enumerate().filter(|&(at, _)| at != 9) {
            let texts: BTreeSet<_> = (0..=greatest)
                .map(|value| bases(Root::Unit).map(|base| text(&with_setting(&base, at, value))))
                .collect();
            assert_eq!(texts.len(), usize::from(greatest) + 1, "{at}");
        }
    }

    /// The program that replays them has buffers of these sizes.
    #[test]
    fn the_samples_are_small() {
        for root in ROOTS {
            assert!(file(root, 1).len() <= 655_360, "{root:?}: {}", file(root, 1).len());
            assert!(cases(root, 1).iter().all(|case| case.room.len() <= 1 << 14));
        }
    }
}
