//! The words and operators of the printer, and the forms of names and of the texts of floats (document 01, "Tree
//! records"; document 02, #105).

use crate::table::{form_of, Holds};

/// The most bytes of a name, and of the text of a float.
const LONGEST_NAME: usize = 255;
const LONGEST_FLOAT: usize = 400;

/// What the names begin with that GLSL keeps for itself (4.60, section 3.7).
pub const RESERVED: &str = "gl_";

/// What a text is as a name.
#[derive(Clone, Copy, Debug, PartialEq, Eq)]
pub enum NameSort {
    /// A name for all uses.
    Ordinary,
    /// A name that GLSL keeps for itself: it may be used, and not be a function's, a struct's or a parameter's.
    Reserved,
    /// No name.
    NoName,
}

/// The words of the printer that no variant stands for.
const LONE_WORDS: [&str; 10] = ["precision", "struct", "if", "else", "switch", "case", "default", "while", "do", "for"];

const UNARY_SYMBOLS: &[&str] = &["++", "--", "+", "-", "!", "~"];

#[rustfmt::skip]
const BINARY_SYMBOLS: &[&str] = &[
    "||", "^^", "&&", "|", "^", "&", "==", "!=", "<", ">", "<=", ">=", "<<", ">>", "+", "-", "*", "/", "%",
];

const ASSIGNMENT_SYMBOLS: &[&str] = &["=", "*=", "/=", "%=", "+=", "-=", "<<=", ">>=", "&=", "^=", "|="];

/// The words of a kind, by variant, where a variant means a word.
pub fn words_of(kind: u8) -> Vec<String> {
    let word = |variant: u8| {
        let form = form_of(kind, variant)?;
        let choice = form.choices.get(usize::from(variant.wrapping_sub(form.variant)));
        Some(choice.map_or_else(|| form.label.to_lowercase(), |choice| (*choice).into()))
    };
    let mut words: Vec<String> = (0..=u8::MAX).map_while(word).collect();
    words.dedup();
    words
}

/// The operators of a kind, by variant.
pub fn symbols_of(kind: u8) -> &'static [&'static str] {
    match kind {
        7 => UNARY_SYMBOLS,
        8 => BINARY_SYMBOLS,
        10 => ASSIGNMENT_SYMBOLS,
        _ => &[],
    }
}

/// The words that are no names: types, qualifiers, jumps, `false` and `true`, and those of statements.
pub fn fixed_words() -> Vec<String> {
    let of_variants = [21, 29, 68, 4].into_iter().flat_map(words_of);
    of_variants.chain(LONE_WORDS.map(String::from)).collect()
}

/// Whether a text has the form of what a record holds. A name is none of the fixed words.
pub fn has_form(text: &[u8], holds: Holds, fixed_words: &[String]) -> bool {
    match holds {
        Holds::Name | Holds::PerhapsName(_) => name_sort(text, fixed_words) != NameSort::NoName,
        Holds::Float => is_float(text),
        Holds::Nothing | Holds::Signed | Holds::Unsigned => true,
    }
}

/// What a text is as a name, which is none of the fixed words.
pub fn name_sort(text: &[u8], fixed_words: &[String]) -> NameSort {
    if !is_name(text) || fixed_words.iter().any(|word| word.as_bytes() == text) {
        NameSort::NoName
    } else if text.starts_with(RESERVED.as_bytes()) {
        NameSort::Reserved
    } else {
        NameSort::Ordinary
    }
}

/// Whether a text is a name or a fixed word.
fn is_name(text: &[u8]) -> bool {
    let letters = text.iter().all(|byte| byte.is_ascii_alphanumeric() || *byte == b'_');
    letters && text.len() <= LONGEST_NAME && text.first().is_some_and(|first| !first.is_ascii_digit())
}

/// Whether a text is that of a float.
fn is_float(text: &[u8]) -> bool {
    let point = text.iter().position(|byte| *byte == b'.');
    let (whole, fraction) = text.split_at(point.unwrap_or(text.len()));
    let digits = |part: &[u8]| !part.is_empty() && part.iter().all(u8::is_ascii_digit);
    let fits = match fraction {
        [] => true,
        [_, digits_behind @ ..] => digits(digits_behind) && fraction.last() != Some(&b'0'),
    };
    text.len() <= LONGEST_FLOAT && digits(whole) && (whole.len() == 1 || whole.first() != Some(&b'0')) && fits
}

#[cfg(test)]
mod tests {
    use super::*;

    #[test]
    fn names() {
        let long = |length| "x".repeat(length);
        for (text, fits) in [
            ("x", true),
            ("_1", true),
            ("goto", true),
            ("", false),
            ("1x", false),
            ("if", false),
            ("vec3", false),
            ("a-b", false),
            // Words of request #102; the Rust module's misspellings of two; one of Vulkan's; one kept for future use.
            ("sampler1D", false),
            ("isampler2DMS", false),
            ("usampler2DMSArray", false),
            ("image2D", false),
            ("uimageBuffer", false),
            ("isampler2MS", true),
            ("usamplerDMSArray", true),
            ("texture2D", true),
            ("sampler3DRect", true),
            (&long(255), true),
            (&long(256), false),
        ] {
            assert_eq!(has_form(text.as_bytes(), Holds::Name, &fixed_words()), fits, "{text}");
        }
    }

    /// Case counts, and the three letters are a name themselves; what has a wrong form is no name, reserved or not.
    #[test]
    fn names_that_glsl_keeps() {
        let long = |length| format!("{:x<length$}", "gl_");
        for (sort, texts) in [
            (NameSort::Reserved, &["gl_Position", "gl_", "gl__", &long(255)][..]),
            (NameSort::Ordinary, &["gl", "glx", "GL_x", "Gl_x", "_gl_x", "my_gl_x"]),
            (NameSort::NoName, &["gl_-", &long(256), "if", ""]),
        ] {
            for text in texts {
                assert_eq!(name_sort(text.as_bytes(), &fixed_words()), sort, "{text}");
            }
        }
    }

    #[test]
    fn floats() {
        let long = |length| "1".repeat(length);
        for text in ["0", "7", "10", "0.5", "10.25", "0.001", &long(400)] {
            assert!(has_form(text.as_bytes(), Holds::Float, &[]), "{text}");
        }
        for text in ["", ".", "1.", ".5", "01", "00", "1.50", "0.0", "1.2.3", "1e5", "-1", &long(401)] {
            assert!(!has_form(text.as_bytes(), Holds::Float, &[]), "{text}");
        }
    }

    #[test]
    fn each_operator_has_a_symbol() {
        for kind in [7, 8, 10] {
            assert_eq!(words_of(kind).len(), symbols_of(kind).len(), "{kind}");
        }
    }
}
