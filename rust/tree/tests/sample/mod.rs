//! The recorded questions of crates/replay, with what the Rust module answered. Each test uses a part of this.

#![allow(dead_code)]

use std::path::{Path, PathBuf};
use tree::record::{Record, SIZE};

/// A question, and what the print answers.
pub struct Case {
    /// The settings' bytes.
    pub settings: Vec<u8>,
    /// The bytes of the records.
    pub records: Vec<u8>,
    /// The names.
    pub names: Vec<u8>,
    /// The refusal's number, 0 for none.
    pub number: u8,
    /// The refusal's place, or the length of the text.
    pub value: usize,
    /// The room behind the call.
    pub room: Vec<u8>,
}

/// The repository's folder.
pub fn repository() -> PathBuf {
    Path::new(env!("CARGO_MANIFEST_DIR")).join("../..")
}

/// The bytes of a file of the repository.
pub fn file(path: &str) -> Vec<u8> {
    std::fs::read(repository().join(path)).unwrap_or_else(|error| panic!("{path}: {error}"))
}

/// The examples that are trees as text, without their `.txt`.
pub fn examples() -> Vec<PathBuf> {
    let folder = std::fs::read_dir(repository().join("examples")).expect("it is there");
    let paths = folder.map(|entry| entry.expect("it can be read").path());
    let texts = paths.filter(|path| path.extension().is_some_and(|end| end == "txt"));
    let found: Vec<PathBuf> = texts.map(|path| path.with_extension("")).collect();
    assert!(found.len() >= 5);
    found
}

/// Takes bytes off the front.
fn take(bytes: &mut &[u8], length: u32) -> Vec<u8> {
    let (front, rest) = bytes.split_at(length.try_into().expect("it is small"));
    *bytes = rest;
    front.into()
}

fn take_record(bytes: &mut &[u8]) -> Record {
    Record::from_bytes(&take(bytes, SIZE as u32).try_into().expect("it is a record"))
}

/// The cases of a sample: each is three records and four byte strings, what the print answers, then settings, records,
/// names and room.
pub fn cases(path: &str) -> Vec<Case> {
    let sample = file(path);
    let mut rest = &sample[..];
    let count = take_record(&mut rest).a;
    let case = |rest: &mut &[u8]| {
        let [print, joined, answer] = std::array::from_fn(|_| take_record(rest));
        let [settings, records, names, room] = [print.a, print.b, joined.a, joined.b].map(|length| take(rest, length));
        let value = answer.a.try_into().expect("it is small");
        Case { settings, records, names, number: print.kind, value, room }
    };
    let cases: Vec<Case> = (0..count).map(|_| case(&mut rest)).collect();
    assert!(cases.len() > 100 && rest.is_empty());
    cases
}
