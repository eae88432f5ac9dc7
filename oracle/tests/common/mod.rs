//! Asking about trees that are written by hand.

use oracle::answer::{answer, Answer, Question, Root};

/// Asks the oracle.
pub fn ask(root: Root, settings: &[u8], records: &[u8], names: &str) -> Answer {
    answer(&Question { root, settings: settings.into(), records: records.into(), names: names.into() })
}
