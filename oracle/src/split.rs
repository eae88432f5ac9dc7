//! Splitting a text by longest match into the words of GLSL 4.60, chapter 3: identifiers and keywords, numbers exactly as in
//! 4.1.3 and 4.1.4, and symbols. Blanks stand between them.
//!
//! Comments are not known here: no text of ours holds one.

/// Operators of several characters; each other word that is no name and no number is one of [`SINGLE`].
#[rustfmt::skip]
const OPERATORS: [&str; 21] = [
    "<<=", ">>=",
    "++", "--", "+=", "-=", "*=", "/=", "%=", "&=", "^=", "|=", "<<", ">>", "<=", ">=", "==", "!=", "&&", "^^", "||",
];
/// Symbols of one character.
const SINGLE: &[u8] = b"()[]{}.,:=;!-~+*/%<>|^&?";

/// The words of a text; nothing where some place begins no word.
pub fn split(text: &str) -> Option<Vec<&str>> {
    let (mut words, mut rest) = (Vec::new(), blanks(text).1);
    while !rest.is_empty() {
        // A word is ASCII.
        let (word, behind) = rest.split_at(longest(rest.as_bytes())?);
        words.push(word);
        rest = blanks(behind).1;
    }
    Some(words)
}

/// The blanks that stand at the front, and what is behind them.
pub fn blanks(text: &str) -> (&str, &str) {
    let behind = text.trim_start_matches([' ', '\t', '\n', '\x0b', '\x0c', '\r']);
    text.split_at(text.len() - behind.len())
}

/// The bytes of a text once spaces, tabs and newlines are removed (02, #107): no other blank is written.
pub fn without_blanks(text: &str) -> impl Iterator<Item = u8> + '_ {
    text.bytes().filter(|byte| !b" \t\n".contains(byte))
}

/// The length of the longest word that stands at the front.
fn longest(text: &[u8]) -> Option<usize> {
    let lengths = [identifier(text), whole_number(text), floating(text), symbol(text)];
    lengths.into_iter().flatten().max()
}

/// An identifier or a keyword: letters, digits and underscores, no digit first.
fn identifier(text: &[u8]) -> Option<usize> {
    let is_first = |byte: &u8| byte.is_ascii_alphabetic() || *byte == b'_';
    text.first().filter(|byte| is_first(byte)).map(|_| run(text, |byte| byte.is_ascii_alphanumeric() || byte == b'_'))
}

/// 4.1.3: decimal without a zero in front, octal or hexadecimal, and `u` or `U` behind it. So `08` is two words.
fn whole_number(text: &[u8]) -> Option<usize> {
    let hex = match text {
        [b'0', b'x' | b'X', digits @ ..] => some_run(digits, |byte| byte.is_ascii_hexdigit()).map(|length| length + 2),
        _ => None,
    };
    let plain = match text.first()? {
        b'0' => Some(run(text, |byte| (b'0'..=b'7').contains(&byte))),
        b'1'..=b'9' => Some(digits(text)),
        _ => None,
    };
    hex.or(plain).map(|length| length + usize::from(matches!(text.get(length), Some(b'u' | b'U'))))
}

/// 4.1.4: digits with a point, an exponent or both, and a suffix behind them. So `1f` is two words, and `1.lf` is one.
fn floating(text: &[u8]) -> Option<usize> {
    let whole = digits(text);
    let (mantissa, has_point) = match text.get(whole) {
        Some(b'.') => (whole + 1 + digits(&text[whole + 1..]), true),
        _ => (whole, false),
    };
    let has_digits = mantissa > whole + 1 || whole > 0;
    let exponent = exponent(&text[mantissa..]);
    if !has_digits || !(has_point || exponent.is_some()) {
        return None;
    }
    let length = mantissa + exponent.unwrap_or(0);
    Some(length + suffix(&text[length..]))
}

/// `e`, perhaps a sign, and digits.
fn exponent(text: &[u8]) -> Option<usize> {
    let front = match text {
        [b'e' | b'E', b'+' | b'-', ..] => 2,
        [b'e' | b'E', ..] => 1,
        _ => return None,
    };
    some_run(&text[front..], |byte| byte.is_ascii_digit()).map(|length| front + length)
}

/// The length of a floating suffix, 0 for none.
fn suffix(text: &[u8]) -> usize {
    match text {
        [b'l', b'f', ..] | [b'L', b'F', ..] => 2,
        [b'f' | b'F', ..] => 1,
        _ => 0,
    }
}

/// The longest operator.
fn symbol(text: &[u8]) -> Option<usize> {
    let several =
        OPERATORS.iter().filter(|operator| text.starts_with(operator.as_bytes())).map(|operator| operator.len());
    several.max().or_else(|| text.first().filter(|byte| SINGLE.contains(byte)).map(|_| 1))
}

/// How many decimal digits stand at the front.
fn digits(text: &[u8]) -> usize {
    run(text, |byte| byte.is_ascii_digit())
}

/// How many such bytes stand at the front.
fn run(text: &[u8], is_such: impl Fn(u8) -> bool) -> usize {
    text.iter().take_while(|&&byte| is_such(byte)).count()
}

/// The same, if there is one at all.
fn some_run(text: &[u8], is_such: impl Fn(u8) -> bool) -> Option<usize> {
    Some(run(text, is_such)).filter(|&length| length > 0)
}

#[cfg(test)]
mod tests {
    use super::*;

    fn splits(text: &str, into: &str) {
        assert_eq!(split(text).map(|words| words.join(" ")).as_deref(), Some(into));
    }

    #[test]
    fn names_and_numbers_are_as_long_as_they_can_be() {
        for word in ["a", "_x9", "int", "0", "17", "017", "0x1F", "10u", "0xfU", "07u"] {
            splits(word, word);
        }
        for word in
            ["1.", "1.5", ".5", "1e5", "1.e1", "1.5e-10", "1E+1", "1.f", "1.5F", "1.lf", "1e5LF", "08.5", "09e1"]
        {
            splits(word, word);
        }
    }

    #[test]
    fn numbers_end_where_their_form_does() {
        for (text, words) in [
            ("08", "0 8"),
            ("1f", "1 f"),
            ("1lf", "1 lf"),
            ("0x", "0 x"),
            ("1..x", "1. . x"),
            ("1..5", "1. .5"),
            ("1.5.x", "1.5 . x"),
            ("1u.x", "1u . x"),
            ("1.x", "1. x"),
            ("1.e", "1. e"),
            ("1.e+", "1. e +"),
            ("1e", "1 e"),
            ("1.Lf", "1. Lf"),
            ("1uu", "1u u"),
            (".x", ". x"),
        ] {
            splits(text, words);
        }
    }

    #[test]
    fn symbols_are_as_long_as_they_can_be() {
        for (text, words) in [
            ("a---b", "a -- - b"),
            ("+++a", "++ + a"),
            ("a<<=b", "a <<= b"),
            ("a>>>=b", "a >> >= b"),
            ("a&&&b", "a && & b"),
            ("a^^=b", "a ^^ = b"),
            ("a===b", "a == = b"),
            ("a/b", "a / b"),
            ("a?b:c,d[1](2)", "a ? b : c , d [ 1 ] ( 2 )"),
            ("{~!a;}", "{ ~ ! a ; }"),
        ] {
            splits(text, words);
        }
    }

    #[test]
    fn what_begins_no_word_is_not_split() {
        for text in ["#", "a\\", "é", "\"", "@", "a\0", "a\u{a0}"] {
            assert_eq!(split(text), None, "{text:?}");
        }
    }

    #[test]
    fn blanks_stand_between_words_alone() {
        for (text, words) in [
            ("", ""),
            (" \t\n", ""),
            ("a b", "a b"),
            ("\ta\n b\r", "a b"),
            ("a- -b", "a - - b"),
            ("- --a", "- -- a"),
            ("1 .x", "1 . x"),
            ("1 .5", "1 .5"),
            ("a\x0b\x0cb", "a b"),
        ] {
            splits(text, words);
        }
        assert_eq!(blanks(" \na b"), (" \n", "a b"));
        assert!(without_blanks("\ta- \n-b").eq(*b"a--b"));
    }
}
