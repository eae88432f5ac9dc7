//! Lines of a text: words, numbers and quoted texts, a comment behind #.

/// A word, a number or a quoted text.
#[derive(Clone, Debug, PartialEq, Eq)]
pub enum Token {
    /// Letters, digits and underscores, a letter first.
    Word(String),
    /// A decimal number.
    Number(i64),
    /// The bytes between quotes.
    Quoted(Vec<u8>),
}

/// A line that is not empty.
#[derive(Debug)]
pub struct Line {
    /// Its number, from 1 on.
    pub number: usize,
    /// How many spaces it begins with.
    pub indent: usize,
    /// What stands in it.
    pub tokens: Vec<Token>,
    /// The line itself, without the spaces in front and without its comment.
    pub words: String,
}

/// What is wrong with a text, and in which line.
#[derive(Debug, PartialEq, Eq)]
pub struct Fault {
    /// The line's number.
    pub line: usize,
    /// What is wrong.
    pub message: String,
}

/// The lines of a text that are neither empty nor only a comment.
pub fn lines(text: &str) -> Result<Vec<Line>, Fault> {
    let mut found = Vec::new();
    for (index, line) in text.lines().enumerate() {
        let inner = line.trim_start_matches(' ');
        let (tokens, end) = tokens(inner).map_err(|message| Fault { line: index + 1, message })?;
        if !tokens.is_empty() {
            let words = inner.get(..end).unwrap_or(inner).trim_end().to_string();
            found.push(Line { number: index + 1, indent: line.len() - inner.len(), tokens, words });
        }
    }
    Ok(found)
}

/// The tokens of a line, and where its comment begins.
fn tokens(line: &str) -> Result<(Vec<Token>, usize), String> {
    let (mut found, mut rest) = (Vec::new(), line);
    while let Some(first) = rest.chars().next() {
        let (token, length) = match first {
            '#' => break,
            ' ' | '\r' => (None, 1),
            '"' => quoted(rest)?,
            '-' | '0'..='9' => number(rest)?,
            'a'..='z' | 'A'..='Z' => word(rest),
            _ => return Err(format!("words, numbers and quoted texts are expected, not {first:?}")),
        };
        found.extend(token);
        rest = rest.get(length..).unwrap_or_default();
    }
    Ok((found, line.len() - rest.len()))
}

/// The word at the front, and its length.
fn word(text: &str) -> (Option<Token>, usize) {
    let end = text.find(|c: char| !(c.is_ascii_alphanumeric() || c == '_')).unwrap_or(text.len());
    (Some(Token::Word(text.get(..end).unwrap_or_default().into())), end)
}

/// The number at the front, and its length.
fn number(text: &str) -> Result<(Option<Token>, usize), String> {
    let end = text.find(|c: char| !(c.is_ascii_alphanumeric() || matches!(c, '-' | '.'))).unwrap_or(text.len());
    let digits = text.get(..end).unwrap_or_default();
    match digits.parse() {
        Ok(number) => Ok((Some(Token::Number(number)), end)),
        Err(_) => Err(format!("{digits} is no whole number (the text of a float is quoted)")),
    }
}

/// The quoted text at the front, and its length with the quotes.
fn quoted(text: &str) -> Result<(Option<Token>, usize), String> {
    let (mut bytes, mut at) = (Vec::new(), 1);
    let all = text.as_bytes();
    loop {
        match all.get(at..).unwrap_or_default() {
            [b'"', ..] => return Ok((Some(Token::Quoted(bytes)), at + 1)),
            [b'\\', escaped @ (b'"' | b'\\'), ..] => {
                bytes.push(*escaped);
                at += 2;
            }
            [b'\\', b'x', high, low, ..] => {
                bytes.push(hexadecimal(*high, *low).ok_or("two hexadecimal digits are expected behind \\x")?);
                at += 4;
            }
            [b'\\', ..] => {
                return Err("behind \\ a quote, another \\ or x and two hexadecimal digits are expected".into())
            }
            [byte, ..] => {
                bytes.push(*byte);
                at += 1;
            }
            [] => return Err("a quote is missing at the end of a text".into()),
        }
    }
}

/// The byte of two hexadecimal digits.
fn hexadecimal(high: u8, low: u8) -> Option<u8> {
    let digit = |letter: u8| char::from(letter).to_digit(16);
    u8::try_from(digit(high)? * 16 + digit(low)?).ok()
}

/// Bytes as a quoted text: what `lines` reads as these bytes.
pub fn quote(bytes: &[u8]) -> String {
    let mut text = String::from('"');
    for &byte in bytes {
        match byte {
            b'"' | b'\\' => text.extend(['\\', char::from(byte)]),
            b' '..=b'~' => text.push(char::from(byte)),
            _ => text.push_str(&format!("\\x{byte:02x}")),
        }
    }
    text.push('"');
    text
}

#[cfg(test)]
mod tests {
    use super::*;

    #[test]
    fn a_line_has_tokens_and_a_comment() {
        let found = lines("\n  Dot \"a#b\" at -12 # \"c\n# none\n").expect("it is well-formed");
        let [line] = &found[..] else { panic!("one line") };
        let tokens =
            [Token::Word("Dot".into()), Token::Quoted(b"a#b".into()), Token::Word("at".into()), Token::Number(-12)];
        assert_eq!((line.number, line.indent, &line.tokens[..]), (2, 2, &tokens[..]));
        assert_eq!(line.words, "Dot \"a#b\" at -12");
    }

    #[test]
    fn every_byte_can_be_quoted() {
        let all: Vec<u8> = (0..=255).collect();
        let text = quote(&all);
        assert_eq!(quoted(&text), Ok((Some(Token::Quoted(all)), text.len())));
    }

    #[test]
    fn faults_name_their_line() {
        for bad in ["\"a", "1.5", "99999999999999999999", "1x", "-", "\\", "\"\\xg0\"", "\"\\", "\t1", "é"] {
            assert_eq!(lines(&format!("1\n{bad}")).err().map(|fault| fault.line), Some(2), "{bad}");
        }
    }
}
