//! The forms of texts (01, below "Tree records"): names, which are no fixed word and may be reserved (02, #105), and float texts.

/// The 119 type keywords, in the order of kind 21's variants: those that document 01 lists, then the sampler and image words
/// that are left of 4.60, section 3.6, by its lines (02, #102).
#[rustfmt::skip]
pub const TYPE_KEYWORDS: [&str; 119] = [
    "void", "bool", "int", "uint", "float", "double",
    "vec2", "vec3", "vec4", "dvec2", "dvec3", "dvec4", "bvec2", "bvec3", "bvec4",
    "ivec2", "ivec3", "ivec4", "uvec2", "uvec3", "uvec4",
    "mat2", "mat3", "mat4",
    "mat2x2", "mat2x3", "mat2x4", "mat3x2", "mat3x3", "mat3x4", "mat4x2", "mat4x3", "mat4x4",
    "dmat2", "dmat3", "dmat4",
    "dmat2x2", "dmat2x3", "dmat2x4", "dmat3x2", "dmat3x3", "dmat3x4", "dmat4x2", "dmat4x3", "dmat4x4",
    "sampler2D", "sampler3D", "samplerCube", "sampler2DShadow", "sampler2DArray", "atomic_uint",

    "sampler1D", "sampler1DShadow", "sampler1DArray", "sampler1DArrayShadow",
    "isampler1D", "isampler1DArray", "usampler1D", "usampler1DArray",
    "sampler2DArrayShadow",
    "isampler2D", "isampler2DArray", "usampler2D", "usampler2DArray",
    "sampler2DRect", "sampler2DRectShadow", "isampler2DRect", "usampler2DRect",
    "sampler2DMS", "isampler2DMS", "usampler2DMS",
    "sampler2DMSArray", "isampler2DMSArray", "usampler2DMSArray",
    "isampler3D", "usampler3D",
    "samplerCubeShadow", "isamplerCube", "usamplerCube",
    "samplerCubeArray", "samplerCubeArrayShadow", "isamplerCubeArray", "usamplerCubeArray",
    "samplerBuffer", "isamplerBuffer", "usamplerBuffer",
    "image1D", "iimage1D", "uimage1D",
    "image1DArray", "iimage1DArray", "uimage1DArray",
    "image2D", "iimage2D", "uimage2D",
    "image2DArray", "iimage2DArray", "uimage2DArray",
    "image2DRect", "iimage2DRect", "uimage2DRect",
    "image2DMS", "iimage2DMS", "uimage2DMS",
    "image2DMSArray", "iimage2DMSArray", "uimage2DMSArray",
    "image3D", "iimage3D", "uimage3D",
    "imageCube", "iimageCube", "uimageCube",
    "imageCubeArray", "iimageCubeArray", "uimageCubeArray",
    "imageBuffer", "iimageBuffer", "uimageBuffer",
];

/// How many of them document 01 lists. The others were names before request #102.
pub const FIRST_KEYWORDS: usize = 51;

/// The other words that the printer can write for a tree of document 01.
#[rustfmt::skip]
pub const OTHER_WORDS: [&str; 43] = [
    "true", "false", "struct",
    "const", "inout", "in", "out", "centroid", "patch", "sample", "uniform", "buffer", "shared", "coherent", "volatile",
    "restrict", "readonly", "writeonly", "attribute", "varying", "subroutine",
    "layout", "highp", "mediump", "lowp", "smooth", "flat", "noperspective", "invariant", "precise", "precision",
    "if", "else", "switch", "case", "default", "while", "do", "for", "continue", "break", "discard", "return",
];

/// The words of qualifiers, in the order of kind 29's variants: 0..16, 19..21 and 22..24.
pub const STORAGE: &[&str] = OTHER_WORDS.split_at(3).1.split_at(17).0;
/// See [`STORAGE`].
pub const PRECISION: &[&str] = OTHER_WORDS.split_at(22).1.split_at(3).0;
/// See [`STORAGE`].
pub const INTERPOLATION: &[&str] = OTHER_WORDS.split_at(25).1.split_at(3).0;

/// Longest name.
pub const LONGEST_NAME: usize = 255;
/// Longest float text.
pub const LONGEST_FLOAT: usize = 400;

/// Whether the printer can write this word without being given it as a name.
pub fn is_fixed_word(text: &[u8]) -> bool {
    TYPE_KEYWORDS.iter().chain(&OTHER_WORDS).any(|word| word.as_bytes() == text)
}

/// What reserved names begin with (4.60, section 3.7).
pub const RESERVED: &[u8] = b"gl_";

/// What a text is as a name.
#[derive(Clone, Copy, Debug, PartialEq, Eq)]
pub enum Judgement {
    /// A name that a tree may declare and use.
    Ordinary,
    /// A name that GLSL keeps for itself: a tree may use it.
    Reserved,
    /// No name.
    NoName,
}

/// Judges a text. A name has 1 to 255 ASCII letters, digits and underscores, no digit first, and isn't a fixed word (01). Names
/// that begin with the letters gl and an underscore are reserved (02, #105).
pub fn judge(text: &[u8]) -> Judgement {
    let is_name = (1..=LONGEST_NAME).contains(&text.len())
        && text.iter().all(|&byte| byte.is_ascii_alphanumeric() || byte == b'_')
        && !text[0].is_ascii_digit()
        && !is_fixed_word(text);
    match is_name {
        false => Judgement::NoName,
        true if text.starts_with(RESERVED) => Judgement::Reserved,
        true => Judgement::Ordinary,
    }
}

/// Whether a text is a name, reserved or not.
pub fn is_name(text: &[u8]) -> bool {
    judge(text) != Judgement::NoName
}

/// A float text has 1 to 400 bytes: a whole part, then nothing, or a point and a fraction.
pub fn is_float(text: &[u8]) -> bool {
    if !(1..=LONGEST_FLOAT).contains(&text.len()) {
        return false;
    }
    match text.iter().position(|&byte| byte == b'.') {
        None => is_whole_part(text),
        Some(point) => is_whole_part(&text[..point]) && is_fraction(&text[point + 1..]),
    }
}

/// Digits without needless leading zero.
fn is_whole_part(text: &[u8]) -> bool {
    are_digits(text) && (text == b"0" || text[0] != b'0')
}

/// One or more digits, the last not 0.
fn is_fraction(text: &[u8]) -> bool {
    are_digits(text) && !text.ends_with(b"0")
}

fn are_digits(text: &[u8]) -> bool {
    !text.is_empty() && text.iter().all(u8::is_ascii_digit)
}

#[cfg(test)]
mod tests {
    use super::*;
    use crate::tables::MISSPELT;
    use std::collections::BTreeSet;

    #[test]
    fn names() {
        for name in ["a", "_", "lf", "u", "Int", "ints", "gl_Position", "sampler4D", "a9", &"x".repeat(255)] {
            assert!(is_name(name.as_bytes()), "{name}");
        }
        for other in ["", "9a", "a-b", "é", "int", "true", "precision", "atomic_uint", &"x".repeat(256)] {
            assert!(!is_name(other.as_bytes()), "{other}");
        }
    }

    /// Case counts, and so does what stands before the letters; two underscores are not asked for (02, #105).
    #[test]
    fn reserved_names_begin_with_gl_and_an_underscore() {
        let judged = |text: &str| judge(text.as_bytes());
        let longest = |front: &str| format!("{front}{}", "x".repeat(255 - front.len()));
        for reserved in ["gl_", "gl_Position", "gl_x", "gl__", "gl_1", "gl_gl_", "gl_int", &longest("gl_")] {
            assert_eq!(judged(reserved), Judgement::Reserved, "{reserved}");
        }
        for ordinary in
            ["g", "gl", "glx", "gl1_", "GL_x", "Gl_x", "gL_a", "g_l", "_gl_", "xgl_", "a__b", &longest("gl")]
        {
            assert_eq!(judged(ordinary), Judgement::Ordinary, "{ordinary}");
        }
        for other in ["", "1gl_", "gl_-", "gl-", "gl_ ", "gl_\0", "gl_é", "int", &(longest("gl_") + "x")] {
            assert_eq!(judged(other), Judgement::NoName, "{other}");
        }
    }

    /// Words of section 3.6 that it gives to Vulkan alone or keeps for future use are none of ours (02, #102).
    #[test]
    fn opaque_types_are_no_names_but_for_vulkans_and_future_ones() {
        for word in ["sampler1D", "isampler2DMS", "usampler2DMSArray", "image2D", "uimageBuffer"] {
            assert!(!is_name(word.as_bytes()), "{word}");
        }
        for name in ["texture2D", "utextureBuffer", "sampler", "samplerShadow", "subpassInput", "sampler3DRect"] {
            assert!(is_name(name.as_bytes()), "{name}");
        }
        assert!(MISSPELT.iter().all(|(word, misspelt)| !is_name(word.as_bytes()) && is_name(misspelt.as_bytes())));
    }

    #[test]
    fn fixed_words_are_all_different() {
        let words: BTreeSet<&str> = TYPE_KEYWORDS.into_iter().chain(OTHER_WORDS).collect();
        assert_eq!(words.len(), 119 + 43);
        assert_eq!(TYPE_KEYWORDS[FIRST_KEYWORDS - 1..=FIRST_KEYWORDS], ["atomic_uint", "sampler1D"]);
    }

    #[test]
    fn floats() {
        for float in ["0", "1", "10", "0.5", "10.01", &"1".repeat(400)] {
            assert!(is_float(float.as_bytes()), "{float}");
        }
        for other in ["", ".", "1.", ".5", "01", "00", "1.0", "1.50", "-1", "1e5", "1.2.3", "inf", &"1".repeat(401)] {
            assert!(!is_float(other.as_bytes()), "{other}");
        }
    }
}
