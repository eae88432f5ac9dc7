//! Expressions.

use super::Grower;
use crate::record::Record;

impl Grower {
    /// An expression that fills the room.
    pub(super) fn expr(&mut self, room: usize) {
        let left = room.saturating_sub(1);
        match self.expr_kind(room) {
            Some(7) => {
                let op = self.unary_op();
                self.operator(7, op, left, 1);
            }
            Some(8) => {
                let op = self.binary_op();
                self.operator(8, op, left, 2);
            }
            Some(10) => {
                let op = self.random.byte(10);
                self.operator(10, op, left, 2);
            }
            Some(12) => self.call(left),
            Some(13) => {
                self.put_named(13, 0, 0);
                self.expr(left);
            }
            Some(kind @ (14 | 15)) => self.operator(kind, 0, left, 1),
            Some(kind @ (11 | 16)) => self.operator(kind, 0, left, 2),
            Some(9) => self.operator(9, 0, left, 3),
            _ => self.atom(),
        }
    }

    /// A kind that has children enough for the room; nothing where there is room for an atom alone.
    fn expr_kind(&mut self, room: usize) -> Option<u8> {
        let from = |least: usize, weight: u64| if room >= least { weight } else { 0 };
        self.random.weighted(&[
            (from(2, 25), 7),
            (from(3, 45), 8),
            (from(4, 15), 9),
            (from(3, 15), 10),
            (from(3, 12), 11),
            (from(2, 18), 12),
            (from(2, 10), 13),
            (from(2, 8), 14),
            (from(2, 8), 15),
            (from(3, 12), 16),
        ])
    }

    /// A record with so many expressions.
    fn operator(&mut self, kind: u8, variant: u8, room: usize, operands: usize) {
        self.put(kind, variant, 0);
        self.grow_each(room, operands, 1, Self::expr);
    }

    /// A unary operator; + and - are frequent, for the joined question's sake.
    fn unary_op(&mut self) -> u8 {
        if self.random.chance(40) {
            2 + self.random.byte(1)
        } else {
            self.random.byte(5)
        }
    }

    /// A binary operator; + and - are frequent, for the joined question's sake.
    fn binary_op(&mut self) -> u8 {
        if self.random.chance(35) {
            14 + self.random.byte(1)
        } else {
            self.random.byte(18)
        }
    }

    /// A call: callee and arguments share the room.
    fn call(&mut self, room: usize) {
        let arguments = self.children(0, 4, room - 1, 1);
        self.put(12, 0, arguments);
        let shares = self.random.share(room, &vec![1; arguments + 1]);
        let by_type = self.random.chance(50);
        for (at, share) in shares.into_iter().enumerate() {
            if at == 0 && by_type {
                self.type_specifier(share);
            } else {
                self.expr(share);
            }
        }
    }

    /// A variable or a constant.
    fn atom(&mut self) {
        match self.random.weighted(&[(50, 1), (18, 2), (10, 3), (6, 4), (8, 5), (8, 6)]) {
            Some(kind @ (2 | 3)) => {
                let a = self.integer();
                self.write(Record { kind, a, ..Record::default() });
            }
            Some(4) => {
                let value = self.random.byte(1);
                self.put(4, value, 0);
            }
            Some(kind @ (5 | 6)) => {
                let (a, b) = self.float(kind);
                self.write(Record { kind, a, b, ..Record::default() });
            }
            _ => self.put_named(1, 0, 0),
        }
    }

    /// 32 bits: of every length, and the ends of both ranges.
    fn integer(&mut self) -> u32 {
        const ENDS: [u32; 8] =
            [0, 1, 9, 10, i32::MAX.cast_unsigned(), i32::MIN.cast_unsigned(), u32::MAX - 1, u32::MAX];
        if self.random.chance(40) {
            self.random.one_of(&ENDS)
        } else {
            self.random.bits32() >> self.random.byte(31)
        }
    }
}
