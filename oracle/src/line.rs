//! Questions and answers as lines of text: `Unit|Expr SETTINGS RECORDS NAMES`, and behind a question `TEXT JOINED`.
//!
//! Bytes are in hex, `-` for none. JOINED is 1 or 0, and 2 for a unit. Where there is no answer, its field is `!N@P` for
//! refusal N at place P, or `?` where the Rust module must not be asked.

use crate::answer::{Answer, Outcome, Question, Root};
use std::fmt;
use std::fmt::Write;

/// Why a line cannot be read.
#[derive(Clone, Debug, PartialEq, Eq)]
pub enum Fault {
    /// The line has another number of fields than this.
    Fields(usize),
    /// The first field is neither `Unit` nor `Expr`.
    Root(String),
    /// A field is not bytes in hex.
    Hex(String),
}

impl fmt::Display for Fault {
    fn fmt(&self, f: &mut fmt::Formatter<'_>) -> fmt::Result {
        match self {
            Self::Fields(wanted) => write!(f, "{wanted} fields are expected"),
            Self::Root(word) => write!(f, "Unit or Expr is expected, not {word}"),
            Self::Hex(word) => write!(f, "bytes in hex are expected, not {word}"),
        }
    }
}

impl std::error::Error for Fault {}

/// A question with the answers that a file claims.
#[derive(Clone, Debug, PartialEq, Eq)]
pub struct Claim<'l> {
    /// What was asked.
    pub question: Question,
    /// The fields TEXT and JOINED.
    pub answer: [&'l str; 2],
}

/// Reads a line of four fields.
pub fn question(line: &str) -> Result<Question, Fault> {
    fields(line).and_then(read_question)
}

/// Reads a line of six fields.
pub fn claim(line: &str) -> Result<Claim<'_>, Fault> {
    let [root, settings, records, names, text, joined] = fields(line)?;
    Ok(Claim { question: read_question([root, settings, records, names])?, answer: [text, joined] })
}

/// Writes the four fields of a question.
pub fn asked(question: &Question) -> String {
    let Question { root, settings, records, names } = question;
    let [settings, records, names] = [settings, records, names].map(|bytes| hex(bytes));
    format!("{root:?} {settings} {records} {names}")
}

/// Writes the six fields of a question and its answers.
pub fn answered(question: &Question, answer: &Answer) -> String {
    let [text, joined] = answer_fields(answer);
    format!("{} {text} {joined}", asked(question))
}

/// Writes TEXT and JOINED.
pub fn answer_fields(answer: &Answer) -> [String; 2] {
    let text = outcome_field(&answer.text, |text| hex(text.as_bytes()));
    let joined = match &answer.joined {
        None => "2".to_owned(),
        Some(outcome) => outcome_field(outcome, |&joined| u8::from(joined).to_string()),
    };
    [text, joined]
}

fn outcome_field<T>(outcome: &Outcome<T>, given: impl FnOnce(&T) -> String) -> String {
    match outcome {
        Outcome::Given(answer) => given(answer),
        Outcome::Refused(refusal) => format!("!{}@{}", refusal.number(), refusal.place),
        Outcome::NotAsked => "?".to_owned(),
    }
}

/// The fields of a line, when it has so many.
fn fields<const N: usize>(line: &str) -> Result<[&str; N], Fault> {
    let fields: Vec<&str> = line.split_whitespace().collect();
    fields.try_into().map_err(|_| Fault::Fields(N))
}

/// Reads the fields of a question.
fn read_question([root, settings, records, names]: [&str; 4]) -> Result<Question, Fault> {
    Ok(Question { root: read_root(root)?, settings: bytes(settings)?, records: bytes(records)?, names: bytes(names)? })
}

/// The root of a word.
pub fn read_root(word: &str) -> Result<Root, Fault> {
    match word {
        "Unit" => Ok(Root::Unit),
        "Expr" => Ok(Root::Expr),
        _ => Err(Fault::Root(word.to_owned())),
    }
}

/// Bytes from hex, `-` for none.
fn bytes(word: &str) -> Result<Vec<u8>, Fault> {
    if word == "-" {
        return Ok(Vec::new());
    }
    let (pairs, rest) = word.as_bytes().as_chunks();
    let bytes = pairs.iter().map(|&[high, low]| Some(digit(high)? << 4 | digit(low)?)).collect::<Option<Vec<u8>>>();
    bytes.filter(|_| rest.is_empty()).ok_or_else(|| Fault::Hex(word.to_owned()))
}

fn digit(byte: u8) -> Option<u8> {
    char::from(byte).to_digit(16).and_then(|digit| u8::try_from(digit).ok())
}

/// Bytes to hex, `-` for none.
pub fn hex(bytes: &[u8]) -> String {
    if bytes.is_empty() {
        return "-".to_owned();
    }
    bytes.iter().fold(String::with_capacity(2 * bytes.len()), |mut text, byte| {
        // Writing to a String cannot fail.
        let _ = write!(text, "{byte:02x}");
        text
    })
}

#[cfg(test)]
mod tests {
    use super::*;
    use crate::answer::answer;

    #[test]
    fn hex_goes_both_ways() {
        for (word, read) in [("-", vec![]), ("00", vec![0]), ("0fA0ff", vec![15, 160, 255])] {
            assert_eq!(bytes(word), Ok(read.clone()));
            assert_eq!(hex(&read), word.to_ascii_lowercase());
        }
        for word in ["0", "0g", "--", "+1", "é"] {
            assert_eq!(bytes(word), Err(Fault::Hex(word.to_owned())), "{word}");
        }
    }

    #[test]
    fn faults_are_told() {
        assert_eq!(question("Expr - -"), Err(Fault::Fields(4)));
        assert_eq!(question("Tree - - -"), Err(Fault::Root("Tree".to_owned())));
        assert_eq!(claim("Expr - - -").map(|_| ()), Err(Fault::Fields(6)));
    }

    /// Answers a question line.
    fn said(line: &str) -> String {
        let question = question(line).expect("a good line");
        answered(&question, &answer(&question))
    }

    #[test]
    fn answers_are_written_behind_the_question() {
        let tight = "00".repeat(21);
        let name = "010000000000000001000000";
        assert_eq!(said(&format!("Expr {tight} {name} 78")), format!("Expr {tight} {name} 78 78 0"));
        let unit = "500000000000000000000000";
        assert_eq!(said(&format!("Unit {tight} {unit} -")), format!("Unit {tight} {unit} - - 2"));
        // Settings refused: the joined question takes none.
        assert_eq!(said(&format!("Expr - {name} 78")), format!("Expr - {name} 78 !1@0 0"));
        assert_eq!(said(&format!("Expr {tight} {name} -")), format!("Expr {tight} {name} - !10@0 !10@0"));
        // "0.10000000001" is no f32 that Display gives back.
        let float = "05000000000000000d000000";
        let text = hex(b"0.10000000001");
        assert_eq!(said(&format!("Expr {tight} {float} {text}")), format!("Expr {tight} {float} {text} ? ?"));
    }
}
