//! Reserved names (02, #105) in every place where a name stands, beside names that nearly are reserved and texts that are no
//! names; and which kinds have such names.

use super::{cover, short, tight};
use crate::answer::{Question, Root};
use crate::grow::{NEARLY_RESERVED, RESERVED_NAMES};
use crate::name::name;
use crate::read;
use crate::record::{shape, Payload, Record, SIZE};
use crate::refusal::Reason;
use crate::tree::{all, keyword, many, named, plain, rec};
use crate::words::{judge, Judgement, LONGEST_NAME, RESERVED};

/// The kinds that declare their name wherever they stand: structs and functions.
const DECLARING: [u8; 2] = [23, 40];
/// The kind that declares its name directly under a parameter, which no expression has, and nowhere else.
const IDENTIFIER: u8 = 27;

/// Texts that are no names, whatever they begin with.
const NO_NAMES: [&str; 9] = ["", "gl_-", "gl_ ", "gl_\0", "gl_é", "gl-", "1gl_", "int", "gl_.x"];

/// The name of all records that are about something else.
const NAMES: &[u8] = b"x";

fn has_name(kind: u8, variant: u8) -> bool {
    matches!(shape(kind, variant), Some((_, Payload::Name)))
}

/// The kinds and variants with a name that a tree with this root can hold.
fn named_pairs(root: Root) -> impl Iterator<Item = (u8, u8)> {
    cover::pairs(root).filter(|&(kind, variant)| has_name(kind, variant))
}

/// Those whose name may be reserved, wherever they stand or in some places.
pub fn using_pairs(root: Root) -> impl Iterator<Item = (u8, u8)> {
    named_pairs(root).filter(|(kind, _)| !DECLARING.contains(kind))
}

/// Those whose name may not be reserved, wherever they stand or in some places.
pub fn declaring_pairs(root: Root) -> impl Iterator<Item = (u8, u8)> {
    named_pairs(root).filter(move |&(kind, _)| DECLARING.contains(&kind) || kind == IDENTIFIER && root == Root::Unit)
}

/// The kinds and variants of a good tree's records whose names are reserved.
pub fn pairs_in(question: &Question) -> impl Iterator<Item = (u8, u8)> + '_ {
    let named = (0..).zip(cover::records(question)).filter(|(_, record)| has_name(record.kind, record.variant));
    let is_reserved = |index| judge(name(&question.records, &question.names, index)) == Judgement::Reserved;
    named.filter(move |(index, _)| is_reserved(*index)).map(|(_, record)| (record.kind, record.variant))
}

/// A tree, and one of its records that has a name.
pub struct Spot {
    root: Root,
    records: Vec<u8>,
    index: usize,
}

impl Spot {
    /// The record.
    pub fn record(&self) -> Record {
        Record::from_bytes(&self.records.as_chunks::<SIZE>().0[self.index])
    }

    /// The tree with this text as the record's name.
    pub fn with(&self, text: &[u8]) -> Question {
        let mut records = self.records.as_chunks::<SIZE>().0.to_vec();
        // Texts and names are short.
        let (a, b) = (NAMES.len() as u32, text.len() as u32);
        records[self.index] = Record { a, b, ..self.record() }.to_bytes();
        tight(self.root, records.concat(), [NAMES, text].concat())
    }

    /// The tree with a name that is reserved as far as the names go, and ends beyond them.
    pub fn with_end_beyond_names(&self) -> Question {
        let mut question = self.with(b"gl_x");
        question.names.pop();
        question
    }

    /// The same record in other trees: with a fault in front of the tree and behind it (a name of the wrong form, 11), with a
    /// record left over (12), and with nothing behind the record (4, if it takes children).
    pub fn among_faults(&self) -> [Self; 4] {
        let Self { root, records, index } = self;
        let (front, fault, tree) = match root {
            Root::Unit => (many(80, 2), rec(47, 4, 0, 0, 0), &records[SIZE..]),
            Root::Expr => (plain(16, 0), rec(1, 0, 0, 0, 0), &records[..]),
        };
        let last = records.len() - SIZE * index;
        let spot = |records: Vec<u8>, from_end| Self { root: *root, index: (records.len() - from_end) / SIZE, records };
        [
            spot(all(&[&front, &fault, tree]), last),
            spot(all(&[&front, tree, &fault]), last + SIZE),
            spot(all(&[records, &plain(4, 0)]), last + SIZE),
            spot(records[..SIZE * (index + 1)].to_vec(), SIZE),
        ]
    }
}

/// A least record for each place where one can be missing.
fn least_records() -> Vec<Vec<u8>> {
    let without_fields = [4, 20, 21, 25, 31, 41, 42, 43, 44, 45, 60, 61, 69, 70].map(|kind| plain(kind, 0));
    let words = [plain(29, 19), plain(30, 2)];
    let counted = [24, 26, 28].map(|kind| many(kind, 1));
    let with_names = [(27, 0), (40, 0), (46, 0), (47, 4)].map(|(kind, variant)| named(kind, variant, 0));
    without_fields.into_iter().chain(words).chain(counted).chain(with_names).collect()
}

/// The records with least ones behind them that make them a tree; nothing where they begin none.
fn completed(root: Root, mut records: Vec<u8>) -> Option<Vec<u8>> {
    let question = |records: &[u8]| tight(root, records.to_vec(), NAMES);
    while let Some(refusal) = read::refusal(&question(&records)) {
        if refusal.reason != Reason::NoneLeft {
            return None;
        }
        let mut longer = least_records().into_iter().map(|record| all(&[&records, &record]));
        records = longer.find(|records| short::is_good_so_far(&question(records)))?;
    }
    Some(records)
}

/// The records in front of places that document 01's table has once, in other surroundings: a parameter's type and its name behind
/// a qualifier, a field of a parameter's struct and the parameter's name behind it, a block's field, a layout id in an expression.
fn further_places() -> [(Root, Vec<u8>); 6] {
    let [qualifier, field] = [all(&[&many(28, 1), &plain(29, 0)]), all(&[&many(26, 1), &keyword(0)])];
    let structure = all(&[&plain(20, 0), &many(23, 1)]);
    let function = all(&[&plain(47, 0), &rec(40, 0, 1, 0, 1), &plain(31, 0), &keyword(0)]);
    let block = all(&[&plain(47, 3), &rec(46, 0, 1, 0, 1), &qualifier]);
    let unit_with = |trees: &[&[u8]]| (Root::Unit, all(&[&many(80, 1), &all(trees)]));
    let layout = all(&[&rec(26, 1, 1, 0, 0), &many(28, 1), &rec(29, 18, 1, 0, 0)]);
    [
        unit_with(&[&function, &plain(41, 3), &qualifier]),
        unit_with(&[&function, &plain(41, 3), &qualifier, &keyword(0)]),
        unit_with(&[&function, &plain(41, 1), &structure, &field]),
        unit_with(&[&function, &plain(41, 1), &structure, &field, &named(27, 0, 0)]),
        unit_with(&[&block, &field]),
        (Root::Expr, all(&[&many(12, 0), &structure, &layout])),
    ]
}

/// The records in front of every place: those of document 01's table and the further ones, and in each of them what a declaration,
/// a field, a full type or a type holds first.
fn places() -> Vec<(Root, Vec<u8>)> {
    let over_names = [plain(47, 0), many(26, 1), plain(31, 0), plain(20, 0), plain(20, 1)];
    let mut places = short::places();
    places.extend(further_places());
    let mut next = 0;
    while let Some((root, before)) = places.get(next).cloned() {
        let inner = over_names.iter().map(|record| (root, all(&[&before, record])));
        let is_good = |(root, records): &(Root, Vec<u8>)| short::is_good_so_far(&tight(*root, records.clone(), NAMES));
        let inner: Vec<_> = inner.filter(|place| is_good(place) && !places.contains(place)).collect();
        places.extend(inner);
        next += 1;
    }
    places
}

/// Every kind and variant that has a name, in every place of a tree with this root where it can stand, each in the least tree.
pub fn spots(root: Root) -> Vec<Spot> {
    let spot = |before: &[u8], (kind, variant)| {
        let records = completed(root, all(&[before, &named(kind, variant, 0)]))?;
        Some(Spot { root, records, index: before.len() / SIZE })
    };
    let places = places().into_iter().filter(|place| place.0 == root);
    places.flat_map(|(_, before)| named_pairs(root).filter_map(move |pair| spot(&before, pair))).collect()
}

/// Reserved names, names that nearly are reserved, the longest of both, and texts that are no names.
pub fn texts() -> Vec<Vec<u8>> {
    let listed = RESERVED_NAMES.iter().chain(&NEARLY_RESERVED).chain(&NO_NAMES).map(|text| text.as_bytes().to_vec());
    let long = [LONGEST_NAME - 1, LONGEST_NAME, LONGEST_NAME + 1]
        .into_iter()
        .flat_map(|length| [RESERVED, b"gl", b"GL_"].map(|front| [front, &vec![b'x'; length - front.len()]].concat()));
    listed.chain(long).collect()
}

/// Every spot with each of the texts, with a reserved name that ends beyond the names, and with one among faults of other records.
pub fn questions(root: Root) -> impl Iterator<Item = Question> {
    let texts = texts();
    spots(root).into_iter().flat_map(move |spot| {
        let others =
            [spot.with_end_beyond_names()].into_iter().chain(spot.among_faults().map(|spot| spot.with(RESERVED)));
        texts.iter().map(|text| spot.with(text)).chain(others).collect::<Vec<_>>()
    })
}

#[cfg(test)]
mod tests {
    use super::*;
    use crate::answer::{answer, Outcome};
    use crate::refusal::Refusal;
    use std::collections::BTreeSet;

    const ROOTS: [Root; 2] = [Root::Unit, Root::Expr];

    /// Whether the record declares its name: a function, a struct, or an identifier that a parameter holds. What holds it is the
    /// last record in front of it that can, but for a field that ends there.
    fn declares(spot: &Spot) -> bool {
        let kinds: Vec<u8> = spot.records.as_chunks::<SIZE>().0[..spot.index].iter().map(|record| record[0]).collect();
        let mut holders = kinds.strip_suffix(&[26, 20, 21, 27]).unwrap_or(&kinds).iter().rev();
        match spot.record().kind {
            23 | 40 => true,
            27 => holders.find(|kind| [26, 41, 44, 46].contains(kind)) == Some(&41),
            _ => false,
        }
    }

    /// The refusal of a reserved name, if it is the record's fault.
    fn declared(spot: &Spot) -> Option<Refusal> {
        declares(spot).then_some(Refusal::at(Reason::Declared, spot.index))
    }

    #[test]
    fn every_spot_is_a_tree() {
        for spot in ROOTS.into_iter().flat_map(spots) {
            for name in [b"x".as_slice(), b"gl", b"GL_x", b"_gl_"] {
                assert_eq!(read::refusal(&spot.with(name)), None);
            }
        }
    }

    #[test]
    fn reserved_names_are_refused_where_they_are_declared_alone() {
        for spot in ROOTS.into_iter().flat_map(spots) {
            for name in [b"gl_".as_slice(), b"gl_Position", b"gl__"] {
                assert_eq!(read::refusal(&spot.with(name)), declared(&spot), "{:?}", spot.records);
            }
        }
    }

    /// 10 and 11 at the record come first, and so does 11 at an earlier one; 11 at a later one, 12 and 4 come later.
    #[test]
    fn reserved_names_have_their_turn() {
        for spot in ROOTS.into_iter().flat_map(spots) {
            assert_eq!(
                read::refusal(&spot.with_end_beyond_names()),
                Some(Refusal::at(Reason::BeyondNames, spot.index))
            );
            for text in NO_NAMES {
                assert_eq!(read::refusal(&spot.with(text.as_bytes())), Some(Refusal::at(Reason::Form, spot.index)));
            }
            let [before, later @ ..] = spot.among_faults();
            assert_eq!(read::refusal(&before.with(RESERVED)), Some(Refusal::at(Reason::Form, 1)));
            if declares(&spot) {
                assert_eq!(
                    later.each_ref().map(|spot| read::refusal(&spot.with(RESERVED))),
                    later.map(|spot| declared(&spot))
                );
            } else {
                let [behind, left_over, _] =
                    later.map(|spot| read::refusal(&spot.with(RESERVED)).map(|refusal| refusal.reason));
                assert_eq!([behind, left_over], [Some(Reason::Form), Some(Reason::LeftOver)]);
            }
        }
    }

    #[test]
    fn there_are_spots_of_every_kind_and_variant() {
        for (root, counts) in [(Root::Unit, [15, 4]), (Root::Expr, [7, 1])] {
            let pairs = |declaring: bool| {
                let spots = spots(root).into_iter().filter(move |spot| declares(spot) == declaring);
                spots.map(|spot| (spot.record().kind, spot.record().variant)).collect::<BTreeSet<_>>()
            };
            assert_eq!([pairs(false), pairs(true)].map(|pairs| pairs.len()), counts);
            assert_eq!(pairs(false), using_pairs(root).collect());
            assert_eq!(pairs(true), declaring_pairs(root).collect());
        }
    }

    /// Prototypes stand by themselves, in functions, as statements and in a `for`; structs wherever a type does.
    #[test]
    fn names_are_declared_in_every_place() {
        let text = |spot: &Spot| match answer(&spot.with(b"N")).text {
            Outcome::Given(text) => text,
            other => panic!("{other:?}"),
        };
        let spots = ROOTS.into_iter().flat_map(spots).filter(declares);
        let texts: BTreeSet<String> = spots.map(|spot| text(&spot)).collect();
        for expected in [
            "void N();",
            "void N(){}",
            "void x(){void N();}",
            "void x(){for(void N();;){}}",
            "void x(void N);",
            "void x(void N[]);",
            "void x(const void N);",
            "void x(const void N[]);",
            "void x(struct {void x;} N);",
            "struct N{} x;",
            "struct N{} x();",
            "struct N{}()",
            "struct N{}[]()",
            "struct {struct N{} x;}()",
            "subroutine(struct N{});",
            "precision highp struct N{};",
            "void x(struct N{} x);",
            "void x(const struct N{} x);",
            "const x{struct N{} x;}x;",
            "void x(){while(struct N{} x=false){}}",
        ] {
            assert!(texts.contains(expected), "{expected}");
        }
        assert!(texts.len() >= 36, "{texts:?}");
    }
}
