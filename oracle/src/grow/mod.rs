//! Random trees of document 01, as records.
//!
//! Every growing function takes the room of its tree: how many records it aims at, its own included. A tree whose least
//! form is larger takes more, so the sizes are about what was asked. Weights keep all kinds and variants frequent.

mod declaration;
mod expr;
mod statement;
mod text;
mod types;

use crate::answer::{Question, Root};
use crate::random::Random;
use crate::record::Record;
use crate::settings;
use text::Names;
pub use text::{NEARLY_RESERVED, RESERVED_NAMES};

/// Why a number fits its field.
const SMALL: &str = "a grown tree is small";

/// The question of a seed and a case. Its tree is one that document 01 accepts, with float texts that Display gives.
pub fn question(seed: u64, case: u64) -> Question {
    let mut grower = Grower::new(seed, case);
    let root = if grower.random.chance(50) { Root::Unit } else { Root::Expr };
    grower.question(root)
}

/// The same with a root that is given.
pub fn rooted(root: Root, seed: u64, case: u64) -> Question {
    Grower::new(seed, case).question(root)
}

/// Grows one tree.
struct Grower {
    random: Random,
    records: Vec<u8>,
    names: Vec<u8>,
    /// Offsets and lengths of the names so far.
    known: Vec<(u32, u32)>,
}

impl Grower {
    fn new(seed: u64, case: u64) -> Self {
        Self { random: Random::new(seed, case), records: Vec::new(), names: Vec::new(), known: Vec::new() }
    }

    fn question(mut self, root: Root) -> Question {
        let mut settings = settings::any(&mut self.random).to_vec();
        let room = self.room();
        match root {
            Root::Unit => self.unit(room),
            Root::Expr => self.expr(room),
        }
        // Behind the tree, so that a seed's trees are those that it had before there was a byte 21 (02, #106).
        settings.extend(self.random.weighted(&[(40, None), (20, Some(0)), (40, Some(1))]).flatten());
        Question { root, settings, records: self.records, names: self.names }
    }

    /// A size to aim at.
    fn room(&mut self) -> usize {
        let (least, most) = self.random.weighted(&[(25, (1, 8)), (40, (4, 30)), (35, (20, 60))]).unwrap_or((1, 1));
        self.random.between(least, most)
    }

    /// Writes a record without text.
    fn put(&mut self, kind: u8, variant: u8, children: usize) {
        let count = u16::try_from(children).expect(SMALL);
        self.write(Record { kind, variant, count, ..Record::default() });
    }

    /// Writes a record with a name, reserved or not.
    fn put_named(&mut self, kind: u8, variant: u8, children: usize) {
        let name = self.name(Names::Any);
        self.put_text(kind, variant, children, name);
    }

    /// Writes a record that declares its name, which is not reserved then (02, #105).
    fn put_declared(&mut self, kind: u8, variant: u8, children: usize) {
        let name = self.name(Names::Ordinary);
        self.put_text(kind, variant, children, name);
    }

    fn put_text(&mut self, kind: u8, variant: u8, children: usize, (a, b): (u32, u32)) {
        let count = u16::try_from(children).expect(SMALL);
        self.write(Record { kind, variant, count, a, b });
    }

    fn write(&mut self, record: Record) {
        self.records.extend(record.to_bytes());
    }

    /// A number of children: some of `low..=high`, as far as the room allows when each takes `least`.
    fn children(&mut self, low: usize, high: usize, room: usize, least: usize) -> usize {
        self.random.between(low, high.min(room / least))
    }

    /// Grows so many trees of at least this size in the room.
    fn grow_each(&mut self, room: usize, children: usize, least: usize, grow: fn(&mut Self, usize)) {
        for share in self.random.share(room, &vec![least; children]) {
            grow(self, share);
        }
    }

    /// A unit: n of 47 or 81.
    fn unit(&mut self, room: usize) {
        let left = room - 1;
        let children = self.children(left.min(1), 4, left, 1);
        self.put(80, 0, children);
        self.grow_each(left, children, 1, Self::external_declaration);
    }
}
