//! The decoder: records and names to the tree of 001, or the refusal that documents 01 and 02 give.
//!
//! A record is opened at the place where it is expected, and opening it decides refusals 4 to 11 in their order, then 15.
//! Children are read behind it, so the first faulty record in preorder decides.

mod declaration;
mod expr;
mod statement;
mod types;

use crate::answer::{Question, Root};
use crate::record::{self, shape, Count, Payload, Record};
use crate::refusal::{Reason, Refusal};
use crate::words::{self, Judgement};
use glsl_lang::ast;
use std::ops::RangeInclusive;

/// Most records of a tree.
pub const MOST_RECORDS: usize = 4_096;
/// Most bytes of names.
pub const MOST_NAMES: usize = 32_768;
/// Deepest record; the root is at 1.
pub const DEEPEST: usize = 200;

/// What stands at a place, or why it cannot.
type Read<T> = Result<T, Refusal>;

/// A tree that document 01 accepts.
#[derive(Clone, Debug, PartialEq)]
pub struct Whole<T> {
    /// The tree as the Rust module takes it.
    pub tree: T,
    /// The first float constant whose text is not what Rust's Display gives for its value. The tree is good, but the
    /// Rust module must not be asked for its text.
    pub unlike_display: Option<usize>,
}

/// A tree of either root, as the Rust module takes it.
#[derive(Clone, Debug, PartialEq)]
pub enum Tree {
    /// A unit.
    Unit(ast::TranslationUnit),
    /// An expression.
    Expr(ast::Expr),
}

/// Reads the tree of a question. Its settings do not count, and neither does what Display gives.
pub fn tree(question: &Question) -> Read<Tree> {
    let Question { root, records, names, .. } = question;
    match root {
        Root::Unit => unit(records, names).map(|whole| Tree::Unit(whole.tree)),
        Root::Expr => expr(records, names).map(|whole| Tree::Expr(whole.tree)),
    }
}

/// Reads a unit (root 80).
pub fn unit(records: &[u8], names: &[u8]) -> Read<Whole<ast::TranslationUnit>> {
    whole(records, names, Reader::unit)
}

/// Reads an expression (root 1..16).
pub fn expr(records: &[u8], names: &[u8]) -> Read<Whole<ast::Expr>> {
    whole(records, names, Reader::expr)
}

/// Why the records of a question are refused; nothing where they are a tree. Its settings do not count.
pub fn refusal(question: &Question) -> Option<Refusal> {
    tree(question).err()
}

/// Reads one tree that takes all records. Refusals 2 and 3, those of the tree, then 12.
fn whole<'a, T>(records: &'a [u8], names: &'a [u8], read: fn(&mut Reader<'a>) -> Read<T>) -> Read<Whole<T>> {
    let (records, rest) = records.as_chunks();
    if records.is_empty() || !rest.is_empty() || records.len() > MOST_RECORDS {
        return Err(Refusal::whole(Reason::Records));
    }
    if names.len() > MOST_NAMES {
        return Err(Refusal::whole(Reason::Names));
    }
    let mut reader = Reader { records, names, next: 0, depth: 0, unlike_display: None };
    let tree = read(&mut reader)?;
    if reader.next < records.len() {
        return Err(Refusal::at(Reason::LeftOver, reader.next));
    }
    Ok(Whole { tree, unlike_display: reader.unlike_display })
}

/// A place in the tree: the kinds and variants that are allowed there, and which of the kinds declares its name there.
struct Place {
    kinds: &'static [RangeInclusive<u8>],
    variants: RangeInclusive<u8>,
    declaring: Option<u8>,
}

impl Place {
    /// A place for these kinds in every variant, whose names may be reserved.
    const fn of(kinds: &'static [RangeInclusive<u8>]) -> Self {
        Self { kinds, variants: 0..=255, declaring: None }
    }

    /// The same place, where the name of this kind may not be reserved (02, #105).
    const fn declaring(self, kind: u8) -> Self {
        Self { declaring: Some(kind), ..self }
    }

    /// The same place for these variants alone.
    const fn in_variants(self, variants: RangeInclusive<u8>) -> Self {
        Self { variants, ..self }
    }
}

/// A record that is good where it stands, with its text ("" where it has none).
struct Opened {
    index: usize,
    record: Record,
    text: String,
}

impl Opened {
    /// The kind.
    fn kind(&self) -> u8 {
        self.record.kind
    }

    /// The variant.
    fn variant(&self) -> u8 {
        self.record.variant
    }

    /// Whether the variant has this bit: how most kinds say that a child is present.
    fn has(&self, bit: u8) -> bool {
        self.record.variant & bit != 0
    }

    /// The text as an identifier.
    fn identifier(self) -> ast::Identifier {
        ast::IdentifierData(self.text).into()
    }

    /// An entry of a table by the variant, counted from `first`.
    fn entry<T: Clone>(&self, table: &[T], first: u8) -> Read<T> {
        let at = self.record.variant.checked_sub(first).map(usize::from);
        at.and_then(|at| table.get(at)).cloned().ok_or(self.refused(Reason::Variant))
    }

    /// A refusal at this record. The shapes shut out every use behind a good opening; it keeps the decoder total.
    fn refused(&self, reason: Reason) -> Refusal {
        Refusal::at(reason, self.index)
    }
}

/// Walks over the records.
struct Reader<'a> {
    records: &'a [[u8; record::SIZE]],
    names: &'a [u8],
    /// The first record not yet read.
    next: usize,
    /// How deep the record stands that was opened last and is not yet closed.
    depth: usize,
    unlike_display: Option<usize>,
}

impl Reader<'_> {
    /// Reads the record expected here, then what is built of it and its children.
    fn node<T>(&mut self, place: &Place, build: fn(&mut Self, Opened) -> Read<T>) -> Read<T> {
        self.depth += 1;
        let opened = self.open(place)?;
        let tree = build(self, opened)?;
        self.depth -= 1;
        Ok(tree)
    }

    /// Reads so many trees.
    fn several<T>(&mut self, count: u16, read: fn(&mut Self) -> Read<T>) -> Read<Vec<T>> {
        (0..count).map(|_| read(self)).collect()
    }

    /// Reads a tree where it is present.
    fn when<T>(&mut self, present: bool, read: fn(&mut Self) -> Read<T>) -> Read<Option<T>> {
        present.then(|| read(self)).transpose()
    }

    /// Opens the next record: refusals 4 to 11 and 15, in this order.
    fn open(&mut self, place: &Place) -> Read<Opened> {
        let index = self.next;
        let refused = |reason| Err(Refusal::at(reason, index));
        let Some(bytes) = self.records.get(index) else {
            return refused(Reason::NoneLeft);
        };
        let record = Record::from_bytes(bytes);
        if !place.kinds.iter().any(|kinds| kinds.contains(&record.kind)) {
            return refused(Reason::Kind);
        }
        if self.depth > DEEPEST {
            return refused(Reason::Depth);
        }
        let (count, payload) = match shape(record.kind, record.variant) {
            Some(shape) if place.variants.contains(&record.variant) => shape,
            _ => return refused(Reason::Variant),
        };
        if count == Count::AtLeastOne && record.count == 0 {
            return refused(Reason::CountOfNone);
        }
        if !unused_are_zero(&record, count, payload) {
            return refused(Reason::Unused);
        }
        let text = self.text(&record, payload).map_err(|reason| Refusal::at(reason, index))?;
        if place.declaring == Some(record.kind) && words::judge(text.as_bytes()) == Judgement::Reserved {
            return refused(Reason::Declared);
        }
        self.next += 1;
        Ok(Opened { index, record, text })
    }

    /// The text of a record that has one: refusals 10 and 11.
    fn text(&self, record: &Record, payload: Payload) -> Result<String, Reason> {
        let is_good = match payload {
            Payload::Unused | Payload::Bits => return Ok(String::new()),
            Payload::Name => words::is_name,
            Payload::Float => words::is_float,
        };
        let bytes = text_at(self.names, record).ok_or(Reason::BeyondNames)?;
        if is_good(bytes) {
            // A good text is ASCII, so each byte is a character.
            Ok(bytes.iter().copied().map(char::from).collect())
        } else {
            Err(Reason::Form)
        }
    }

    /// The unit: n of 47 or 81.
    fn unit(&mut self) -> Read<ast::TranslationUnit> {
        self.node(&Place::of(&[80..=80]), |reader, r| {
            reader.several(r.record.count, Self::external_declaration).map(ast::TranslationUnit)
        })
    }
}

/// Whether fields that the shape does not use are 0.
fn unused_are_zero(record: &Record, count: Count, payload: Payload) -> bool {
    let count_is_good = count != Count::Unused || record.count == 0;
    let a_and_b_are_good = match payload {
        Payload::Unused => record.a == 0 && record.b == 0,
        Payload::Bits => record.b == 0,
        Payload::Name | Payload::Float => true,
    };
    count_is_good && a_and_b_are_good
}

/// The bytes of a record's text; nothing where they end beyond the names.
fn text_at<'n>(names: &'n [u8], record: &Record) -> Option<&'n [u8]> {
    let start = usize::try_from(record.a).ok()?;
    let end = start.checked_add(usize::try_from(record.b).ok()?)?;
    names.get(start..end)
}
