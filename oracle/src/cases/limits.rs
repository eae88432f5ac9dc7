//! Inputs at document 01's limits: depth, number of records, lengths of names and texts, and the forms of texts.

use super::tight;
use crate::answer::{Question, Root};
use crate::read;
use crate::record::{Record, SIZE};
use crate::refusal::Reason;
use crate::settings;
use crate::tree::{all, declared, function, int, keyword, many, named, plain, rec, var};
use crate::words;
use std::collections::BTreeSet;

/// The names of the trees that are about something else.
const NAMES: &str = "x";

/// A tree that can be made deeper: `open` in front and `close` behind, again and again.
struct Nest {
    root: Root,
    start: Vec<u8>,
    open: Vec<u8>,
    inner: Vec<u8>,
    close: Vec<u8>,
    end: Vec<u8>,
}

impl Nest {
    /// An expression; `close` is behind.
    fn expr(open: Vec<u8>, close: Vec<u8>) -> Self {
        Self { root: Root::Expr, start: Vec::new(), open, inner: var(0), close, end: Vec::new() }
    }

    /// A statement in a function's body.
    fn statement(open: Vec<u8>, close: Vec<u8>) -> Self {
        let start = all(&[&many(80, 1), &function(0), &many(60, 1)]);
        Self { root: Root::Unit, start, open, inner: plain(61, 0), close, end: Vec::new() }
    }

    /// The tree with so many layers, and the bytes of its innermost two layers.
    fn of(&self, layers: usize) -> (Question, std::ops::Range<usize>) {
        let front = all(&[&self.start, &self.open.repeat(layers)]);
        let records = all(&[&front, &self.inner, &self.close.repeat(layers), &self.end]);
        let inner = front.len() - 2 * self.open.len()..front.len() + self.inner.len();
        (tight(self.root, records, NAMES), inner)
    }

    /// The fewest layers that are too deep.
    fn first_too_deep(&self) -> usize {
        (2..).find(|&layers| is_too_deep(&self.of(layers).0)).unwrap_or(2)
    }
}

fn all_nests() -> impl Iterator<Item = Nest> {
    nests().chain(sign_nests())
}

/// One nest for each way in which kinds can hold each other without end.
fn nests() -> impl Iterator<Item = Nest> {
    expr_nests().into_iter().chain(struct_nests()).chain(statement_nests())
}

/// Expressions in expressions.
fn expr_nests() -> [Nest; 14] {
    let none = Vec::new;
    [
        Nest::expr(plain(7, 0), none()),
        Nest::expr(plain(8, 0), var(0)),
        Nest::expr(all(&[&plain(8, 18), &var(0)]), none()),
        Nest::expr(plain(9, 0), all(&[&var(0), &var(0)])),
        Nest::expr(all(&[&plain(9, 0), &var(0)]), var(0)),
        Nest::expr(all(&[&plain(9, 0), &var(0), &var(0)]), none()),
        Nest::expr(all(&[&plain(10, 10), &var(0)]), none()),
        Nest::expr(all(&[&plain(11, 0), &var(0)]), none()),
        Nest::expr(many(12, 0), none()),
        Nest::expr(all(&[&many(12, 2), &keyword(0), &var(0)]), none()),
        Nest::expr(named(13, 0, 0), none()),
        Nest::expr(plain(14, 0), none()),
        Nest::expr(plain(15, 0), none()),
        Nest::expr(plain(16, 0), var(0)),
    ]
}

/// Expressions in types, and structs in structs and as types of a subroutine.
fn struct_nests() -> [Nest; 4] {
    let structure = all(&[&plain(20, 0), &many(23, 1)]);
    let field = all(&[&structure, &many(26, 1)]);
    let qualified = all(&[&structure, &rec(26, 1, 1, 0, 0), &many(28, 1)]);
    let name = named(27, 0, 0);
    let typed_name = all(&[&keyword(2), &name]);
    [
        // A dimension in a callee's type; a layout id's expression in a field of a callee's struct.
        Nest::expr(all(&[&many(12, 0), &plain(20, 1), &plain(21, 0), &many(24, 1), &plain(25, 1)]), Vec::new()),
        Nest::expr(all(&[&many(12, 0), &qualified, &rec(29, 18, 1, 0, 0), &named(30, 1, 0)]), typed_name.clone()),
        Nest { start: many(12, 0), inner: keyword(2), ..Nest::expr(field, name) },
        Nest {
            root: Root::Unit,
            start: all(&[&many(80, 1), &declared(0), &qualified]),
            open: all(&[&rec(29, 17, 1, 0, 0), &qualified]),
            inner: plain(29, 0),
            close: typed_name.clone(),
            end: typed_name,
        },
    ]
}

/// Statements in statements, and initializers in initializers.
fn statement_nests() -> [Nest; 9] {
    let none = Vec::new;
    let initialized = all(&[&many(80, 1), &plain(47, 1), &plain(42, 0), &named(43, 5, 0), &plain(31, 0), &keyword(2)]);
    [
        Nest::statement(many(60, 1), none()),
        Nest::statement(all(&[&plain(62, 0), &var(0)]), none()),
        Nest::statement(all(&[&plain(62, 1), &var(0)]), plain(61, 0)),
        Nest::statement(all(&[&plain(62, 1), &var(0), &plain(61, 0)]), none()),
        Nest::statement(all(&[&many(63, 1), &var(0)]), none()),
        Nest::statement(all(&[&plain(65, 0), &plain(69, 0), &var(0)]), none()),
        Nest::statement(plain(66, 0), var(0)),
        Nest::statement(all(&[&plain(67, 0), &plain(70, 0)]), none()),
        Nest {
            root: Root::Unit,
            start: initialized,
            open: rec(45, 1, 1, 0, 0),
            inner: all(&[&plain(45, 0), &int(1)]),
            close: none(),
            end: none(),
        },
    ]
}

/// Signs that meet in every layer, and signs, and an int and a dot, that meet through all of them (02, #103).
fn sign_nests() -> [Nest; 5] {
    let [minus, less] = [plain(7, 3), all(&[&plain(8, 15), &var(0)])];
    let negative = all(&[&minus, &var(0)]);
    let through = |start: &[u8], inner: &[u8], open, close| Nest {
        start: start.to_vec(),
        inner: inner.to_vec(),
        ..Nest::expr(open, close)
    };
    [
        Nest::expr(all(&[&minus, &plain(7, 1)]), Vec::new()),
        Nest::expr(all(&[&minus, &many(12, 0)]), Vec::new()),
        through(&less, &int(u32::MAX), named(13, 0, 0), Vec::new()),
        through(&minus, &negative, many(12, 0), Vec::new()),
        through(&less, &negative, plain(8, 16), var(0)),
    ]
}

/// The question whole, and with each of these bytes of its records set to each of these values.
fn with_bytes_set(
    question: Question,
    places: impl Iterator<Item = usize>,
    values: [u8; 4],
) -> impl Iterator<Item = Question> {
    let damages: Vec<_> = places.flat_map(|at| values.map(|value| (at, value))).collect();
    let whole = question.clone();
    let damaged = damages.into_iter().map(move |(at, value)| {
        let mut question = question.clone();
        question.records[at] = value;
        question
    });
    std::iter::once(whole).chain(damaged)
}

/// The deepest good tree of every nest.
pub fn deepest() -> impl Iterator<Item = Question> {
    around_deepest().map(|[deepest, _]| deepest)
}

/// The deepest good tree of every nest, and the one that is a layer deeper.
pub fn around_deepest() -> impl Iterator<Item = [Question; 2]> {
    all_nests().map(|nest| {
        let first = nest.first_too_deep();
        [first - 1, first].map(|layers| nest.of(layers).0)
    })
}

/// Trees of every nest around the greatest depth, whole and with damages in the deepest records.
pub fn deep() -> impl Iterator<Item = Question> {
    all_nests().flat_map(|nest| {
        let first = nest.first_too_deep();
        let trees: Vec<_> = (first - 2..first + 2).map(|layers| nest.of(layers)).collect();
        trees.into_iter().flat_map(|(question, inner)| with_bytes_set(question, inner, [0, 1, 47, 255]))
    })
}

/// Every nest of a unit at every depth up to the deepest and one beyond it, with a newline wherever one can stand and the
/// widest indents, of spaces and of tabs.
pub fn levels() -> impl Iterator<Item = Question> {
    nests().filter(|nest| nest.root == Root::Unit).flat_map(|nest| {
        (2..=nest.first_too_deep()).flat_map(move |layers| {
            [1, 2].map(|style| {
                let mut settings = settings::OPEN;
                settings[..2].copy_from_slice(&[style, settings::GREATEST[1]]);
                Question { settings: settings.to_vec(), ..nest.of(layers).0 }
            })
        })
    })
}

/// Trees under so many records that their own come to stand around the greatest depth, whole and with another kind or
/// variant anywhere. An expression comes under operators, a unit's one declaration under compounds; other units are
/// passed over.
pub fn deep_trees(trees: &[Question]) -> impl Iterator<Item = Question> + '_ {
    let lowered = trees.iter().flat_map(|tree| (185..=read::DEEPEST).filter_map(|layers| lowered(tree, layers)));
    lowered.flat_map(|(question, start)| {
        let heads = (start..question.records.len()).step_by(SIZE).flat_map(|at| [at, at + 1]);
        with_bytes_set(question, heads, [0, 1, 20, 255])
    })
}

/// The tree under so many records, and where it begins.
fn lowered(tree: &Question, layers: usize) -> Option<(Question, usize)> {
    let Question { root, records, names, .. } = tree;
    let (before, inner) = match root {
        Root::Expr => (plain(7, 4).repeat(layers), records.as_slice()),
        Root::Unit => {
            let (first, declaration) = records.split_first_chunk::<SIZE>()?;
            (Record::from_bytes(first).count == 1 && declaration[0] == 47).then_some(())?;
            let function = function(u32::try_from(names.len()).ok()?);
            (all(&[&many(80, 1), &function, &many(60, 1).repeat(layers)]), declaration)
        }
    };
    let question =
        Question { records: all(&[&before, inner]), names: [names, b"f".as_slice()].concat(), ..tree.clone() };
    Some((question, before.len()))
}

/// Whether the tree is refused for its depth.
fn is_too_deep(question: &Question) -> bool {
    read::refusal(question).is_some_and(|refusal| refusal.reason == Reason::Depth)
}

/// Flat trees of so many records: a call with arguments, and a unit of declarations.
pub fn flat(count: u16) -> [Question; 2] {
    let call = all(&[&many(12, count - 2), &var(0).repeat(usize::from(count) - 1)]);
    let unit = all(&[&many(80, count - 1), &named(47, 4, 0).repeat(usize::from(count) - 1)]);
    [tight(Root::Expr, call, NAMES), tight(Root::Unit, unit, NAMES)]
}

/// Numbers of records around the greatest, and records that are not whole; names around their most bytes, before or
/// behind a fault of the records.
pub fn sizes() -> impl Iterator<Item = Question> {
    let most = u16::try_from(read::MOST_RECORDS).unwrap_or(u16::MAX);
    let flat = (most - 2..=most + 2).flat_map(flat);
    let parts = flat.flat_map(|question| {
        let length = question.records.len();
        [length, length - 1, length - SIZE, 1].map(|length| {
            let mut question = question.clone();
            question.records.truncate(length);
            question
        })
    });
    parts.chain([tight(Root::Unit, Vec::new(), NAMES), tight(Root::Expr, Vec::new(), NAMES)]).flat_map(|question| {
        [0, 1, read::MOST_NAMES - 1, read::MOST_NAMES, read::MOST_NAMES + 1, 2 * read::MOST_NAMES]
            .map(|length| Question { names: vec![b'x'; length], ..question.clone() })
    })
}

/// Whole numbers by themselves: all of up to four digits, and those around each power of ten and of two. Each as an IntConst,
/// as one with the other sign, and as a UIntConst.
pub fn whole_numbers() -> impl Iterator<Item = Question> {
    let powers = (0..10).map(|exponent| 10_u32.pow(exponent)).chain((0..u32::BITS).map(|exponent| 1 << exponent));
    let around = powers.flat_map(|power| (0..5).map(move |step| power.wrapping_sub(2).wrapping_add(step)));
    (0..10_000).chain(around).flat_map(|number| {
        let records = [int(number), int(number.wrapping_neg()), rec(3, 0, 0, number, 0)];
        records.map(|record| tight(Root::Expr, record, NAMES))
    })
}

/// A record with a text, in the middle of names: a name (kind 1) or a float (kinds 5 and 6).
fn text(kind: u8, text: &[u8]) -> Question {
    let length = u32::try_from(text.len()).unwrap_or(u32::MAX);
    tight(Root::Expr, rec(kind, 0, 0, 1, length), [b"1", text, b"1"].concat())
}

/// Texts of every length around the longest, of good bytes alone and with each of some bytes in each place.
pub fn long_texts() -> impl Iterator<Item = Question> {
    let lengths = [1, 2, 15, 16, 23, 24, 25, 63, 64, 65, 254, 255, 256, 257, 398, 399, 400, 401, 402, 511, 512, 513];
    let texts = lengths.into_iter().flat_map(|length| [b'a', b'1', b'0', b'_'].map(|byte| vec![byte; length]));
    texts.flat_map(|base| {
        let other = (0..base.len()).flat_map({
            let base = base.clone();
            move |at| {
                let base = base.clone();
                [b'.', b'0', b'9', b'Z', b'-', 0, 255].into_iter().map(move |byte| {
                    let mut text = base.clone();
                    text[at] = byte;
                    text
                })
            }
        });
        std::iter::once(base).chain(other).flat_map(|bytes| [1, 5, 6].map(|kind| text(kind, &bytes)))
    })
}

/// All texts of at most two bytes, and all of at most six bytes of those that a float can be mistaken over.
pub fn short_texts() -> impl Iterator<Item = Question> {
    let one = (0..=255).map(|byte| vec![byte]);
    let two = (0..=255).flat_map(|first| (0..=255).map(move |second| vec![first, second]));
    let floats = (1..=6).flat_map(|length| words_over(b"019.-e", length));
    one.chain(two).chain(floats).flat_map(|bytes| [1, 5, 6].map(|kind| text(kind, &bytes)))
}

/// All words of this length over some letters.
fn words_over(letters: &'static [u8], length: u32) -> impl Iterator<Item = Vec<u8>> {
    let count = letters.len();
    (0..count.pow(length)).map(move |number| (0..length).map(|at| letters[number / count.pow(at) % count]).collect())
}

/// Names that look like sampler and image types and are none: Vulkan's words and one for future use, both misspellings of the
/// Rust module (02, #102), and what a shader may call its own.
pub const LIKE_OPAQUE_TYPES: [&str; 24] = [
    "isampler2MS",
    "usamplerDMSArray",
    "sampler",
    "samplerShadow",
    "sampler3DRect",
    "texture",
    "texture2D",
    "utexture2DMSArray",
    "textureBuffer",
    "subpassInput",
    "sampler4D",
    "image4D",
    "image2D_",
    "image2DShadow",
    "iimage",
    "uimage2DArrayMS",
    "imageSize",
    "imageLoad",
    "imageStore",
    "imageColor",
    "samplerLight",
    "samplerCubeMap",
    "shadowSampler",
    "usamplerBuffers",
];

/// Every fixed word, and what is nearly one; and words that are none of the printer's.
pub fn near_words() -> Vec<Vec<u8>> {
    const OTHERS: [&str; 12] = [
        "lf",
        "u",
        "define",
        "version",
        "main",
        "gl_Position",
        "goto",
        "static",
        "common",
        "partition",
        "active",
        "mat5",
    ];
    let others = OTHERS.iter().chain(&LIKE_OPAQUE_TYPES).map(|word| word.as_bytes().to_vec());
    near(&words::TYPE_KEYWORDS).chain(others).collect::<BTreeSet<_>>().into_iter().collect()
}

/// The fixed words that there were before request #102, and what is nearly one.
pub fn near_first_words() -> Vec<Vec<u8>> {
    near(&words::TYPE_KEYWORDS[..words::FIRST_KEYWORDS]).collect::<BTreeSet<_>>().into_iter().collect()
}

/// Fixed words, with these as type keywords, and what is nearly one: longer, shorter, in other letters, with any one byte
/// changed by one.
fn near<'w>(type_keywords: &'w [&str]) -> impl Iterator<Item = Vec<u8>> + 'w {
    type_keywords.iter().chain(&words::OTHER_WORDS).flat_map(|word| {
        let word = word.as_bytes();
        let changed = (0..word.len()).flat_map(move |at| {
            [1, 255, 32].map(|step: u8| {
                let mut word = word.to_vec();
                word[at] = word[at].wrapping_add(step);
                word
            })
        });
        let longer = [b'_', b'2', b's', b'x', b'D'].into_iter().map(move |byte| [word, &[byte]].concat());
        let doubled = [word, word].concat();
        let reversed = word.iter().rev().copied().collect();
        let others = [word.to_vec(), word[1..].to_vec(), word[..word.len() - 1].to_vec(), doubled, reversed];
        others.into_iter().chain([word.to_ascii_uppercase(), [b"_", word].concat()]).chain(longer).chain(changed)
    })
}

/// A text at every offset and of every length around the end of the names, and where a + b is beyond 32 bits.
pub fn offsets() -> impl Iterator<Item = Question> {
    let sizes = [0, 1, 2, 5, read::MOST_NAMES - 1, read::MOST_NAMES];
    sizes.into_iter().flat_map(|size| {
        let end = u32::try_from(size).unwrap_or(u32::MAX);
        let near = move |x: u32| (0..=4).map(move |step| x.wrapping_add(step).wrapping_sub(2));
        let ends = move || [0, end, 1 << 16, 1 << 31, u32::MAX].into_iter().flat_map(near);
        let pairs =
            ends().flat_map(move |a| ends().chain([end.wrapping_sub(a), a.wrapping_neg()]).map(move |b| (a, b)));
        pairs.flat_map(move |(a, b)| {
            [(1, b'x'), (5, b'1'), (6, b'.')]
                .map(|(kind, byte)| tight(Root::Expr, rec(kind, 0, 0, a, b), vec![byte; size]))
        })
    })
}

#[cfg(test)]
mod tests {
    use super::*;
    use crate::answer::{answer, Outcome};
    use crate::tables::MISSPELT;
    use std::collections::BTreeMap;

    /// How often each refusal's number comes up, 0 for none.
    fn numbers(questions: impl Iterator<Item = Question>) -> BTreeMap<u8, usize> {
        let mut numbers = BTreeMap::new();
        for question in questions {
            *numbers.entry(read::refusal(&question).map_or(0, |refusal| refusal.number())).or_default() += 1;
        }
        numbers
    }

    #[test]
    fn every_nest_meets_the_limit() {
        for (at, nest) in all_nests().enumerate() {
            assert!((3..=200).contains(&nest.first_too_deep()), "nest {at}");
        }
        assert!(deepest().all(|question| read::refusal(&question).is_none()));
    }

    #[test]
    fn signs_meet_in_the_deepest_trees() {
        let spaces = |nest: &Nest| {
            let settings = settings::EXPORT.to_vec();
            answer(&Question { settings, ..nest.of(nest.first_too_deep() - 1).0 }).needed
        };
        // The innermost minus of the second stands over a name's call. The third has a space before its dot too.
        assert_eq!(sign_nests().map(|nest| spaces(&nest)), [99, 98, 2, 1, 1]);
    }

    #[test]
    fn deep_trees_are_refused_for_every_fault_of_a_record() {
        let numbers = numbers(deep());
        assert!([0, 4, 5, 6, 7, 8, 9, 10, 12].iter().all(|number| numbers.contains_key(number)), "{numbers:?}");
    }

    /// A statement at depth 200 has 197 compounds around it: the unit and the function are the first two records.
    #[test]
    fn levels_are_as_wide_as_they_come() {
        let width = |line: &str| line.len() - line.trim_start_matches([' ', '\t']).len();
        let texts = levels().filter_map(|question| match answer(&question).text {
            Outcome::Given(text) => Some(text),
            _ => None,
        });
        let widest = texts.map(|text| text.lines().map(width).max().unwrap_or(0)).max();
        assert_eq!(widest, Some(197 * usize::from(settings::GREATEST[1])));
    }

    #[test]
    fn deep_trees_stand_around_the_limit() {
        let trees = [Root::Unit, Root::Expr].map(|root| crate::cases::cover::smallest(root, 1, 1_000)).concat();
        let numbers = numbers(deep_trees(&trees));
        assert!([0, 4, 5, 6, 7].iter().all(|number| numbers.contains_key(number)), "{numbers:?}");
        // A declaration of precision at 200: its word is too deep, whatever its variant.
        let precision = [tight(Root::Unit, all(&[&many(80, 1), &plain(47, 2), &plain(29, 0), &keyword(2)]), "")];
        let is_the_word = |question: &Question| {
            let place = read::refusal(question).filter(|refusal| refusal.reason == Reason::Depth);
            place.is_some_and(|refusal| question.records[SIZE * refusal.place] == 29)
        };
        assert!(deep_trees(&precision).any(|question| is_the_word(&question)));
    }

    #[test]
    fn sizes_are_refused_and_passed() {
        let numbers = numbers(sizes());
        assert!([0, 2, 3, 4, 10].iter().all(|number| numbers.contains_key(number)), "{numbers:?}");
    }

    #[test]
    fn whole_numbers_have_every_length() {
        let texts: BTreeSet<String> = whole_numbers()
            .map(|question| match answer(&question).text {
                Outcome::Given(text) => text,
                other => panic!("{other:?}"),
            })
            .collect();
        // The least and the greatest of each length, below 0 and unsigned too.
        for digits in 1..=9 {
            let [least, greatest] = [format!("1{}", "0".repeat(digits - 1)), "9".repeat(digits)];
            for text in [least, greatest] {
                assert!([text.clone(), format!("-{text}"), format!("{text}u")].iter().all(|text| texts.contains(text)));
            }
        }
        assert!(["0", "0u", "2147483647", "-2147483648", "4294967295u"].iter().all(|&text| texts.contains(text)));
    }

    #[test]
    fn texts_are_of_both_sorts() {
        for questions in [Box::new(long_texts()) as Box<dyn Iterator<Item = Question>>, Box::new(short_texts())] {
            let numbers = numbers(questions);
            assert_eq!(numbers.keys().copied().collect::<Vec<_>>(), [0, 11]);
        }
        assert_eq!(numbers(offsets()).into_keys().collect::<Vec<_>>(), [0, 10, 11]);
        assert_eq!(words_over(b"ab", 3).count(), 8);
    }

    #[test]
    fn near_words_hold_all_fixed_words() {
        let fixed = |near: &[Vec<u8>]| near.iter().filter(|word| words::is_fixed_word(word)).count();
        let names = |near: &[Vec<u8>]| near.iter().filter(|word| words::is_name(word)).count();
        let (near, first) = (near_words(), near_first_words());
        assert_eq!(fixed(&near), words::TYPE_KEYWORDS.len() + words::OTHER_WORDS.len());
        assert!(names(&near) > 2_000 && names(&first) > 1_000);
        assert!(first.iter().all(|word| near.contains(word)));
        // Beside their own 94 they have words of #102, such as sampler1D, which is near sampler2D.
        assert!(fixed(&first) >= 94 && first.contains(&b"sampler1D".to_vec()));
    }

    #[test]
    fn names_like_opaque_types_are_names() {
        assert!(LIKE_OPAQUE_TYPES.iter().all(|word| words::is_name(word.as_bytes())));
        assert!(MISSPELT.iter().all(|(_, misspelt)| LIKE_OPAQUE_TYPES.contains(misspelt)));
    }
}
