//! Declarations and functions. `bit` is 1 where a variant's bit says that a child is present, so that a share of 0 is
//! a child that is not there.

use super::Grower;

/// 1 where the variant has the bit, else 0.
pub(super) fn bit(variant: u8, bit: u8) -> usize {
    usize::from(variant & bit != 0)
}

impl Grower {
    /// A declaration or, in room for it, a function.
    pub(super) fn external_declaration(&mut self, room: usize) {
        if room >= 6 && self.random.chance(70) {
            // Most of the room is the body's: only there do statements grow.
            let prototype = self.random.between(4, room.min(14) - 2);
            self.put(81, 0, 0);
            self.prototype(prototype);
            self.compound(room - 1 - prototype);
        } else {
            self.declaration(room);
        }
    }

    /// A declaration: kind 47.
    pub(super) fn declaration(&mut self, room: usize) {
        let from = |least: usize, weight: u64| if room >= least { weight } else { 0 };
        let below = |least: usize, weight: u64| if room < least { weight } else { 0 };
        let variant = self.random.weighted(&[
            (from(5, 15), 0),
            (from(6, 40), 1),
            (from(4, 10), 2),
            (from(4, 15), 3),
            (below(3, 10), 4),
            (from(3, 8), 5),
        ]);
        let left = room.saturating_sub(1);
        let Some(variant @ (0..=3 | 5)) = variant else {
            return self.put_named(47, 4, 0);
        };
        self.put(47, variant, 0);
        match variant {
            0 => self.prototype(left),
            1 => self.declarator_list(left),
            2 => self.precision(left),
            3 => self.block(left),
            _ => self.qualifier(left),
        }
    }

    /// What a precision declaration says: one of three words, and a type.
    fn precision(&mut self, room: usize) {
        let word = 19 + self.random.byte(2);
        self.put(29, word, 0);
        self.type_specifier(room - 1);
    }

    /// A prototype: kind 40, at least 4 records.
    fn prototype(&mut self, room: usize) {
        let parameters = self.children(0, 3, room.saturating_sub(4), 3);
        self.put_declared(40, 0, parameters);
        let shares = self.random.share(room - 1, &[3, 3 * parameters]);
        let (ty, rest) = if parameters > 0 { (shares[0], shares[1]) } else { (room - 1, 0) };
        self.full_type(ty);
        self.grow_each(rest, parameters, 3, Self::parameter);
    }

    /// A parameter: kind 41, at least 3 records. Every variant comes up, even where it needs more room.
    fn parameter(&mut self, room: usize) {
        let variant = self.random.byte(3);
        self.put(41, variant, 0);
        let (named, qualified) = (bit(variant, 1), bit(variant, 2));
        let shares = self.random.share(room - 1, &vec![2; 1 + qualified]);
        self.optional(qualified > 0, shares[0], Self::qualifier);
        let last = shares[qualified];
        self.type_specifier(last.saturating_sub(named).max(2));
        let size = if last > 5 { self.random.between(1, 4) } else { 1 };
        self.optional(named > 0, size, Self::parameter_name);
    }

    /// A declarator list: kind 42, at least 5 records.
    fn declarator_list(&mut self, room: usize) {
        let left = room - 1;
        let others = self.children(0, 3, left.saturating_sub(4), 2);
        self.put(42, 0, others);
        let mut least = vec![2; others + 1];
        least[0] = 4;
        for (at, share) in self.random.share(left, &least).into_iter().enumerate() {
            if at == 0 {
                self.first_declarator(share);
            } else {
                self.next_declarator(share);
            }
        }
    }

    /// The first declarator: kind 43, at least 4 records. Every variant comes up, even where it needs more room.
    fn first_declarator(&mut self, room: usize) {
        let variant = self.random.byte(7);
        let (arrayed, initialized) = (bit(variant, 2), bit(variant, 4));
        if variant & 1 == 0 {
            self.put(43, variant, 0);
        } else {
            self.put_named(43, variant, 0);
        }
        let mut least = vec![2; 1 + arrayed + initialized];
        least[0] = 3;
        let shares = self.random.share(room - 1, &least);
        self.full_type(shares[0]);
        self.optional(arrayed > 0, shares[arrayed], Self::array);
        self.optional(initialized > 0, shares[arrayed + initialized], Self::initializer);
    }

    /// A next declarator: kind 44, at least 2 records.
    fn next_declarator(&mut self, room: usize) {
        let initialized = room >= 4 && self.random.chance(60);
        self.put(44, u8::from(initialized), 0);
        if initialized {
            let shares = self.random.share(room - 1, &[1, 2]);
            self.arrayed_identifier(shares[0]);
            self.initializer(shares[1]);
        } else {
            self.arrayed_identifier(room - 1);
        }
    }

    /// An initializer: kind 45, at least 2 records.
    pub(super) fn initializer(&mut self, room: usize) {
        let left = room - 1;
        if left >= 2 && self.random.chance(40) {
            let members = self.children(1, 4, left, 2);
            self.put(45, 1, members);
            self.grow_each(left, members, 2, Self::initializer);
        } else {
            self.put(45, 0, 0);
            self.expr(left);
        }
    }

    /// A block: kind 46, at least 3 records.
    fn block(&mut self, room: usize) {
        let named = usize::from(room >= 4 && self.random.chance(50));
        let fields = self.children(0, 3, room.saturating_sub(3 + named), 4);
        self.put_named(46, u8::from(named > 0), fields);
        let mut least = vec![2];
        least.extend(vec![4; fields]);
        least.extend(vec![1; named]);
        let shares = self.random.share(room - 1, &least);
        self.qualifier(shares[0]);
        for &share in &shares[1..=fields] {
            self.field(share);
        }
        self.optional(named > 0, shares[fields + named], Self::arrayed_identifier);
    }
}
