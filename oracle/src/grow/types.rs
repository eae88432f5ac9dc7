//! Types, arrays, fields and qualifiers. The least type has 2 records, the least array, field and qualifier 2, 4 and 2.

use super::Grower;

impl Grower {
    /// A type: kind 20.
    pub(super) fn type_specifier(&mut self, room: usize) {
        let arrayed = room >= 4 && self.random.chance(35);
        self.put(20, u8::from(arrayed), 0);
        let least: &[usize] = if arrayed { &[1, 2] } else { &[1] };
        let shares = self.random.share(room.saturating_sub(1), least);
        self.non_array(shares[0]);
        if let Some(&share) = shares.get(1) {
            self.array(share);
        }
    }

    /// A type keyword, a type name or a struct.
    fn non_array(&mut self, room: usize) {
        let of_struct = if room >= 5 { 90 } else { 4 };
        match self.random.weighted(&[(30, 21), (8, 22), (of_struct, 23)]) {
            Some(22) => self.put_named(22, 0, 0),
            Some(23) => self.structure(room - 1),
            _ => {
                let keyword = self.random.byte(118);
                self.put(21, keyword, 0);
            }
        }
    }

    /// A struct, named or nameless.
    fn structure(&mut self, room: usize) {
        let fields = self.children(0, 3, room, 4);
        if self.random.chance(60) {
            self.put_declared(23, 1, fields);
        } else {
            self.put(23, 0, fields);
        }
        self.grow_each(room, fields, 4, Self::field);
    }

    /// An array: kind 24.
    pub(super) fn array(&mut self, room: usize) {
        let left = room - 1;
        let dimensions = self.children(1, 3, left, 1);
        self.put(24, 0, dimensions);
        self.grow_each(left, dimensions, 1, Self::dimension);
    }

    fn dimension(&mut self, room: usize) {
        self.put(25, u8::from(room > 1), 0);
        if room > 1 {
            self.expr(room - 1);
        }
    }

    /// A field: kind 26.
    pub(super) fn field(&mut self, room: usize) {
        let qualified = room >= 6 && self.random.chance(40);
        let qualifier = 2 * usize::from(qualified);
        let names = self.children(1, 3, room - 3 - qualifier, 1);
        self.put(26, u8::from(qualified), names);
        let shares = self.random.share(room - 1, &[qualifier, 2, names]);
        // A share of the qualifier's that nobody takes goes to the type.
        let (qualifier, ty) = if qualified { (shares[0], shares[1]) } else { (0, shares[0] + shares[1]) };
        self.optional(qualified, qualifier, Self::qualifier);
        self.type_specifier(ty);
        self.grow_each(shares[2], names, 1, Self::arrayed_identifier);
    }

    /// Grows a tree where it is present.
    pub(super) fn optional(&mut self, present: bool, room: usize, grow: fn(&mut Self, usize)) {
        if present {
            grow(self, room);
        }
    }

    /// The name of a field, of a next declarator or of a block, arrayed where the room allows: kind 27.
    pub(super) fn arrayed_identifier(&mut self, room: usize) {
        self.maybe_arrayed(room, Self::put_named);
    }

    /// A parameter's name, which is declared, arrayed where the room allows: kind 27.
    pub(super) fn parameter_name(&mut self, room: usize) {
        self.maybe_arrayed(room, Self::put_declared);
    }

    fn maybe_arrayed(&mut self, room: usize, put: fn(&mut Self, u8, u8, usize)) {
        let arrayed = room >= 3;
        put(self, 27, u8::from(arrayed), 0);
        self.optional(arrayed, room.saturating_sub(1), Self::array);
    }

    /// A qualifier: kind 28.
    pub(super) fn qualifier(&mut self, room: usize) {
        let left = room - 1;
        let words = self.children(1, 3, left, 1);
        self.put(28, 0, words);
        self.grow_each(left, words, 1, Self::qualifier_spec);
    }

    fn qualifier_spec(&mut self, room: usize) {
        let left = room - 1;
        if left >= 2 && self.random.chance(30) {
            let types = self.children(1, 3, left, 2);
            self.put(29, 17, types);
            self.grow_each(left, types, 2, Self::type_specifier);
        } else if left >= 1 {
            let ids = self.children(1, 3, left, 1);
            self.put(29, 18, ids);
            self.grow_each(left, ids, 1, Self::layout_id);
        } else {
            // Every word without children; 18 asks for one.
            let word = self.random.byte(25);
            self.put(29, if word < 18 { word } else { word + 1 }, 0);
        }
    }

    fn layout_id(&mut self, room: usize) {
        if room > 1 {
            self.put_named(30, 1, 0);
            self.expr(room - 1);
        } else if self.random.chance(30) {
            self.put(30, 2, 0);
        } else {
            self.put_named(30, 0, 0);
        }
    }

    /// A full type: kind 31, at least 3 records.
    pub(super) fn full_type(&mut self, room: usize) {
        let qualified = room >= 5 && self.random.chance(50);
        self.put(31, u8::from(qualified), 0);
        if qualified {
            let shares = self.random.share(room - 1, &[2, 2]);
            self.qualifier(shares[0]);
            self.type_specifier(shares[1]);
        } else {
            self.type_specifier(room - 1);
        }
    }
}
