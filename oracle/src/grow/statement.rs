//! Statements.

use super::declaration::bit;
use super::Grower;

impl Grower {
    /// A statement.
    pub(super) fn statement(&mut self, room: usize) {
        let from = |least: usize, weight: u64| if room >= least { weight } else { 0 };
        let below = |least: usize, weight: u64| if room < least { weight } else { 0 };
        let kind = self.random.weighted(&[
            (10, 47),
            (from(2, 20) + below(2, 4), 60),
            (10, 61),
            (from(3, 20), 62),
            (from(2, 10), 63),
            (below(8, 6) + 1, 64),
            (from(4, 16), 65),
            (from(3, 10), 66),
            (from(3, 24), 67),
            (below(8, 14) + 2, 68),
        ]);
        match kind {
            Some(47) => self.declaration(room),
            Some(60) => self.compound(room),
            Some(62) => self.selection(room),
            Some(63) => self.switch(room),
            Some(65) => self.while_loop(room),
            Some(66) => self.do_loop(room),
            Some(67) => self.for_loop(room),
            Some(68) => self.jump(room),
            Some(kind) => self.maybe_expr(kind, room - 1),
            None => self.maybe_expr(61, 0),
        }
    }

    /// Kinds 61 and 64: variant 1 with an expression, 0 without.
    fn maybe_expr(&mut self, kind: u8, room: usize) {
        self.put(kind, u8::from(room > 0), 0);
        self.optional(room > 0, room, Self::expr);
    }

    /// A compound: often of one statement, for collapse's sake.
    pub(super) fn compound(&mut self, room: usize) {
        let left = room - 1;
        let single = self.random.chance(40);
        let statements = self.children(left.min(1), if single { 1 } else { 6 }, left, 1);
        self.put(60, 0, statements);
        self.grow_each(left, statements, 1, Self::statement);
    }

    fn selection(&mut self, room: usize) {
        let other = room >= 4 && self.random.chance(55);
        self.put(62, u8::from(other), 0);
        let shares = self.random.share(room - 1, &vec![1; 2 + usize::from(other)]);
        self.expr(shares[0]);
        for &share in &shares[1..] {
            self.statement(share);
        }
    }

    fn switch(&mut self, room: usize) {
        let statements = self.children(0, 5, room - 2, 1);
        self.put(63, 0, statements);
        let shares = self.random.share(room - 1, &vec![1; 1 + statements]);
        self.expr(shares[0]);
        for &share in &shares[1..] {
            self.statement(share);
        }
    }

    fn while_loop(&mut self, room: usize) {
        self.put(65, 0, 0);
        let shares = self.random.share(room - 1, &[2, 1]);
        self.condition(shares[0]);
        self.statement(shares[1]);
    }

    fn do_loop(&mut self, room: usize) {
        self.put(66, 0, 0);
        let shares = self.random.share(room - 1, &[1, 1]);
        self.statement(shares[0]);
        self.expr(shares[1]);
    }

    fn for_loop(&mut self, room: usize) {
        let wanted = self.random.byte(3);
        let variant = if room < 3 + 2 * bit(wanted, 1) + bit(wanted, 2) { 0 } else { wanted };
        let (checked, stepped) = (bit(variant, 1), bit(variant, 2));
        self.put(67, variant, 0);
        let mut least = vec![1];
        least.extend(vec![2; checked]);
        least.extend(vec![1; stepped + 1]);
        let shares = self.random.share(room - 1, &least);
        self.for_start(shares[0]);
        self.optional(checked > 0, shares[checked], Self::condition);
        self.optional(stepped > 0, shares[checked + stepped], Self::expr);
        self.statement(shares[checked + stepped + 1]);
    }

    /// The start of a `for`: kind 70.
    fn for_start(&mut self, room: usize) {
        let left = room - 1;
        let by_declaration = left > 0 && self.random.chance(50);
        self.put(70, if by_declaration { 2 } else { u8::from(left > 0) }, 0);
        if by_declaration {
            self.declaration(left);
        } else {
            self.optional(left > 0, left, Self::expr);
        }
    }

    /// A condition: kind 69, at least 2 records.
    fn condition(&mut self, room: usize) {
        if room >= 6 && self.random.chance(50) {
            self.put_named(69, 1, 0);
            let shares = self.random.share(room - 1, &[3, 2]);
            self.full_type(shares[0]);
            self.initializer(shares[1]);
        } else {
            self.put(69, 0, 0);
            self.expr(room - 1);
        }
    }

    fn jump(&mut self, room: usize) {
        if room > 1 {
            self.put(68, 4, 0);
            self.expr(room - 1);
        } else {
            let word = self.random.byte(3);
            self.put(68, word, 0);
        }
    }
}
