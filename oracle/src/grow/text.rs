//! Names and float texts.

use super::{Grower, SMALL};
use crate::words::{self, judge, Judgement, LONGEST_NAME, RESERVED};

const FIRST: &[u8] = b"abcdefghijklmnopqrstuvwxyzABCDEFGHIJKLMNOPQRSTUVWXYZ_";
const LATER: &[u8] = b"abcdefghijklmnopqrstuvwxyzABCDEFGHIJKLMNOPQRSTUVWXYZ_0123456789";
/// Names that a printer might take for words of its own. (The Rust module misspells two type keywords so, 02, #102.)
#[rustfmt::skip]
const CLOSE_TO_WORDS: [&str; 13] = [
    "lf", "u", "If", "ints", "define", "_",
    "isampler2MS", "usamplerDMSArray", "image4D", "sampler3DRect", "texture2D", "sampler", "subpassInput",
];

/// Reserved names (02, #105): some that GLSL has, and others.
#[rustfmt::skip]
pub const RESERVED_NAMES: [&str; 14] = [
    "gl_Position", "gl_FragCoord", "gl_PerVertex", "gl_in", "gl_PointSize", "gl_ClipDistance", "gl_FragDepth", "gl_InvocationID",
    "gl_", "gl_x", "gl__", "gl_1", "gl_gl_", "gl_int",
];
/// Names that are nearly reserved.
#[rustfmt::skip]
pub const NEARLY_RESERVED: [&str; 21] = [
    "g", "gl", "gl1", "glx", "glx_", "gl1_", "gla_b", "GL_", "GL_x", "Gl_x", "gL_a", "g_", "g_l", "l_", "_gl_", "xgl_", "hl_x",
    "fl_x", "gm_x", "a__b", "__",
];

/// Which names a record takes.
#[derive(Clone, Copy)]
pub(super) enum Names {
    /// Reserved ones too.
    Any,
    /// Those that are not reserved.
    Ordinary,
}

impl Names {
    fn take(self, text: &[u8]) -> bool {
        match self {
            Self::Any => judge(text) != Judgement::NoName,
            Self::Ordinary => judge(text) == Judgement::Ordinary,
        }
    }
}

/// A value whose text is Display's.
trait Float: std::fmt::Display + Copy {
    fn of_bits(bits: u64) -> Self;
    fn of_quotient(whole: u32, by: u32) -> Self;
    /// Finite and without a sign.
    fn is_in_scope(self) -> bool;
}

impl Float for f32 {
    fn of_bits(bits: u64) -> Self {
        Self::from_bits((bits >> 32) as u32)
    }

    fn of_quotient(whole: u32, by: u32) -> Self {
        whole as Self / by as Self
    }

    fn is_in_scope(self) -> bool {
        self.is_finite() && self.is_sign_positive()
    }
}

impl Float for f64 {
    fn of_bits(bits: u64) -> Self {
        Self::from_bits(bits)
    }

    fn of_quotient(whole: u32, by: u32) -> Self {
        Self::from(whole) / Self::from(by)
    }

    fn is_in_scope(self) -> bool {
        self.is_finite() && self.is_sign_positive()
    }
}

impl Grower {
    /// Offset and length of a name: one that was there before, a part of one, or a new one.
    pub(super) fn name(&mut self, names: Names) -> (u32, u32) {
        let known = self.known_name().filter(|_| self.random.chance(40));
        let part = known.filter(|_| self.random.chance(25)).and_then(|name| self.part_of(name));
        part.or(known).filter(|&place| self.is_one_of(names, place)).unwrap_or_else(|| {
            let text = self.new_name(names);
            let place = self.put_text_behind(&text);
            self.known.push(place);
            place
        })
    }

    fn known_name(&mut self) -> Option<(u32, u32)> {
        let last = self.known.len().checked_sub(1)?;
        self.known.get(self.random.between(0, last)).copied()
    }

    /// A part of a name, if it is a name: texts may overlap.
    fn part_of(&mut self, (start, length): (u32, u32)) -> Option<(u32, u32)> {
        let (start, length) = (usize::try_from(start).ok()?, usize::try_from(length).ok()?);
        let skipped = self.random.between(0, length - 1);
        let part = place(start + skipped, self.random.between(1, length - skipped));
        self.is_one_of(Names::Any, part).then_some(part)
    }

    /// Whether the text at this offset and of this length is one of these names.
    fn is_one_of(&self, names: Names, (start, length): (u32, u32)) -> bool {
        // They were offsets and lengths of the names' bytes before.
        let (start, length) = (start as usize, length as usize);
        names.take(&self.names[start..start + length])
    }

    /// A new name: some of them look like fixed words or like reserved names, or are reserved.
    fn new_name(&mut self, names: Names) -> Vec<u8> {
        let text = match self.random.byte(99) {
            0..8 => self.close_to_a_word(),
            8..20 => self.about_reserved(names),
            _ => self.letters(),
        };
        if names.take(&text) {
            text
        } else {
            b"not_a_word".to_vec()
        }
    }

    /// Letters and digits: mostly few, now and then as many as can be.
    fn letters(&mut self) -> Vec<u8> {
        let lengths = [(35, (1, 1)), (45, (2, 8)), (15, (9, 40)), (4, (41, 254)), (1, (LONGEST_NAME, LONGEST_NAME))];
        let (least, most) = self.random.weighted(&lengths).unwrap_or((1, 1));
        let length = self.random.between(least, most);
        let mut text: Vec<u8> = (0..length).map(|_| self.random.one_of(LATER)).collect();
        text[0] = self.random.one_of(FIRST);
        text
    }

    /// A reserved name, where one may stand: a known one, or any other, up to the longest. Or a name that nearly is one.
    fn about_reserved(&mut self, names: Names) -> Vec<u8> {
        match (names, self.random.byte(3)) {
            (Names::Ordinary, _) | (Names::Any, 0) => self.random.one_of(&NEARLY_RESERVED).into(),
            (Names::Any, 1) => self.random.one_of(&RESERVED_NAMES).into(),
            (Names::Any, _) => {
                let mut text = [RESERVED, &self.letters()].concat();
                text.truncate(LONGEST_NAME);
                text
            }
        }
    }

    /// A name that is nearly a fixed word, or looks like one.
    fn close_to_a_word(&mut self) -> Vec<u8> {
        if self.random.chance(50) {
            return self.random.one_of(&CLOSE_TO_WORDS).into();
        }
        let word = self.random.one_of(&words::OTHER_WORDS);
        let longer = self.random.chance(50);
        if longer {
            format!("{word}_").into_bytes()
        } else {
            word.to_ascii_uppercase().into_bytes()
        }
    }

    /// Offset and length of the text of a single (kind 5) or double (kind 6) float.
    pub(super) fn float(&mut self, kind: u8) -> (u32, u32) {
        let text = if kind == 5 { self.float_text::<f32>() } else { self.float_text::<f64>() };
        self.put_text_behind(text.as_bytes())
    }

    /// Whole numbers, short fractions, and any bits at all.
    fn float_text<T: Float>(&mut self) -> String {
        let value = match self.random.byte(3) {
            0 => T::of_quotient(self.random.bits32() % 100, 1),
            1 => T::of_quotient(self.random.bits32() % 100_000, 1_000),
            2 => T::of_quotient(self.random.bits32() % 1_000, 64),
            _ => T::of_bits(self.random.bits()),
        };
        let value = if value.is_in_scope() { value } else { T::of_quotient(1, 10) };
        value.to_string()
    }

    /// Puts a text behind the names.
    fn put_text_behind(&mut self, text: &[u8]) -> (u32, u32) {
        let start = self.names.len();
        self.names.extend(text);
        place(start, text.len())
    }
}

/// Offset and length as a record's fields.
fn place(start: usize, length: usize) -> (u32, u32) {
    (u32::try_from(start).expect(SMALL), u32::try_from(length).expect(SMALL))
}
