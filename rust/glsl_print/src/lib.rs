//! The proved GLSL printer, called from safe Rust.
//!
//! A tree comes as records of 12 bytes ([`record`]) with a buffer of names, the layout as 21 or 22 bytes of settings ([`EXPORT`] for
//! exports, [`OPEN`] for people, [`TIGHT`] or others); GLSL comes out in a room that the caller lends. docs/RECORDS.md of the
//! repository has all kinds of records and all settings, byte by byte.
//!
//! ```
//! use glsl_print::{print_expr, record, EXPORT, OPEN};
//!
//! // a - -b: a binary minus of the variable a and of the unary minus of the variable b.
//! let records = [record(8, 15, 0, 0, 0), record(1, 0, 0, 0, 1), record(7, 3, 0, 0, 0), record(1, 0, 0, 1, 1)].concat();
//! let mut room = [0; 64];
//! assert_eq!(print_expr(&OPEN, &records, b"ab", &mut room)?, "a - -b");
//! assert_eq!(print_expr(&EXPORT, &records, b"ab", &mut room)?, "a- -b");
//! # Ok::<(), glsl_print::Refused>(())
//! ```
//!
//! Promised by each call, whatever the bytes that it gets, and proved of the library's code (crates/glsl of the repository; what is
//! trusted for that is in docs/PROMISES.md): it returns, with the text or with the first [`Refused`]; a refusal alters no byte of
//! the room, and the bytes behind a text are untouched; nothing is kept, and there is no heap and no state, so any number of threads
//! may call.
//!
//! # What a text is read as
//!
//! With the needed spaces (settings byte 21, as in [`EXPORT`]) or spaces around operators (byte 12, as in [`OPEN`]) the text of a
//! sound expression is read by GLSL 4.60's grammar as that expression and as no other; that is proved too. Sound leaves out a few
//! shapes that are misread under any settings, among them a negative IntConst: `-1` is read as minus over 1. With byte 21 at 0 it
//! also leaves out minus over `--a`, which is then printed as `---a`, plus over `++a`, and a field of an IntConst, `1.lf`.
//!
//! With neither ([`TIGHT`]) signs can meet: `n - --k` is printed as `n---k`, which is read as `n-- - k`. [`joined`] tells beforehand
//! whether signs meet somewhere, or a dot and a whole number. Where it answers no the text of a sound expression is read as that
//! expression and as no other under any settings, [`TIGHT`] among them; that is proved as well.
//!
//! Settings are only layout: but for byte 15, which leaves out the braces of single statements, the texts of one tree under two of them
//! differ in spaces, tabs and newlines alone (docs/LAYOUT.md of the repository). Proved.
//!
//! Of units it is promised what their text is and, with byte 21 at 1, that longest match splits it into its tokens. No braces are added:
//! an `if` without an `else` that is the first statement of an `if` with one takes that `else` when it is read, under any settings.
//! docs/READING.md, docs/LAYOUT.md and docs/DIFFERENCES.md of the repository say more.
//!
//! # Stack
//!
//! A call takes up to 126,000 bytes of stack on x86-64 (a tree may be 200 levels deep): leave it 192 KiB. Rust's threads have
//! 2 MiB unless they were asked to have less. The library's code for x86-64 touches its stack page by page as Rust's own does, so
//! a call with too little of it ends the program at the guard page.

#![deny(unsafe_code)]
#![deny(unsafe_op_in_unsafe_fn)]

#[allow(unsafe_code)]
pub mod calls;
mod refusal;

pub use refusal::{Refusal, Refused};

/// A settings record of 21 bytes: how a text is laid out. The calls take any slice; one of 22 bytes, as [`EXPORT`], also says whether
/// the needed spaces are written. 21 bytes mean that they are not.
pub type Settings = [u8; 21];

/// For exports: [`TIGHT`] with the needed spaces (byte 21), one where two tokens would be read as one and nowhere else: `n- --k`,
/// `- --a`, `1 .x`. Sound expressions are read as they were meant, so there is no need to ask [`joined`].
pub const EXPORT: [u8; 22] = [0, 0, 0, 0, 0, 0, 0, 0, 0, 0, 0, 0, 0, 0, 0, 0, 0, 0, 0, 0, 0, 1];

/// The least space: none around operators, no line breaks. The text can be read as ANOTHER expression than the tree's, as `n---k` for
/// `n - --k`: use [`EXPORT`], or ask [`joined`] first.
pub const TIGHT: Settings = [0; 21];

/// For people: spaces around operators, a line for each statement, indents of four spaces. Sound expressions are read as they were
/// meant.
pub const OPEN: Settings = [2, 4, 1, 1, 1, 1, 1, 1, 2, 2, 2, 2, 1, 2, 2, 0, 1, 1, 1, 1, 1];

/// The bytes of a record. Those of a tree stand in preorder, one behind the other.
pub const fn record(kind: u8, variant: u8, count: u16, a: u32, b: u32) -> [u8; 12] {
    let [count, a, b] = [(count as u32).to_le_bytes(), a.to_le_bytes(), b.to_le_bytes()];
    [kind, variant, count[0], count[1], a[0], a[1], a[2], a[3], b[0], b[1], b[2], b[3]]
}

/// Prints a unit at the front of the room, and hands that front back.
///
/// # Errors
///
/// Any refusal. No byte of the room is altered then.
pub fn print_unit<'room>(
    settings: &[u8],
    records: &[u8],
    names: &[u8],
    room: &'room mut [u8],
) -> Result<&'room str, Refused> {
    written(calls::print_unit(settings, records, names, room), room)
}

/// Prints an expression at the front of the room, and hands that front back.
///
/// # Errors
///
/// Any refusal. No byte of the room is altered then.
pub fn print_expr<'room>(
    settings: &[u8],
    records: &[u8],
    names: &[u8],
    room: &'room mut [u8],
) -> Result<&'room str, Refused> {
    written(calls::print_expr(settings, records, names, room), room)
}

/// As [`print_unit`], in a room that grows where the text is longer than it. It never shrinks, so it serves for one print after
/// another.
///
/// # Errors
///
/// Any refusal but [`Refusal::RoomTooSmall`].
pub fn print_unit_growing<'room>(
    settings: &[u8],
    records: &[u8],
    names: &[u8],
    room: &'room mut Vec<u8>,
) -> Result<&'room str, Refused> {
    let answer = growing(room, |room| calls::print_unit(settings, records, names, room));
    written(answer, room)
}

/// As [`print_expr`], in a room that grows where the text is longer than it, as for [`print_unit_growing`].
///
/// ```
/// use glsl_print::{print_expr_growing, record, TIGHT};
///
/// let mut room = Vec::new();
/// assert_eq!(print_expr_growing(&TIGHT, &record(1, 0, 0, 0, 5), b"color", &mut room)?, "color");
/// assert_eq!(room.len(), 5);
/// # Ok::<(), glsl_print::Refused>(())
/// ```
///
/// # Errors
///
/// Any refusal but [`Refusal::RoomTooSmall`].
pub fn print_expr_growing<'room>(
    settings: &[u8],
    records: &[u8],
    names: &[u8],
    room: &'room mut Vec<u8>,
) -> Result<&'room str, Refused> {
    let answer = growing(room, |room| calls::print_expr(settings, records, names, room));
    written(answer, room)
}

/// Asks whether an expression is joined. It is so exactly if, under [`TIGHT`], somewhere in it
///
/// - a binary + or - has a right operand without brackets whose text begins with the same sign: `a--b` for a - -b, `n---k` for
///   n - --k;
/// - a unary + or - has an operand without brackets whose text begins with the same sign: `---a` for minus over --a, `--1` for minus
///   over the IntConst -1;
/// - a Dot stands directly over an IntConst: `1.lf`.
///
/// The two signs, or number and dot, are then read as one token, and nothing else in the text can be: longest match, by GLSL's own words,
/// splits a text under [`TIGHT`] into the expression's tokens exactly where the answer is no.
///
/// The needed spaces (settings byte 21, as in [`EXPORT`]) keep all three sorts apart, and where they are on there is no need to ask;
/// spaces around operators (byte 12) by themselves keep the first sort apart.
///
/// ```
/// use glsl_print::{joined, record};
///
/// let [minus, negate, decrement] = [record(8, 15, 0, 0, 0), record(7, 3, 0, 0, 0), record(7, 1, 0, 0, 0)];
/// let [a, b, one] = [record(1, 0, 0, 0, 1), record(1, 0, 0, 1, 1), record(2, 0, 0, 1, 0)];
/// assert!(joined(&[minus, a, negate, b].concat(), b"ab")?); // a--b
/// assert!(joined(&[negate, decrement, a].concat(), b"ab")?); // ---a
/// assert!(!joined(&[decrement, negate, a].concat(), b"ab")?); // ---a too, and read as it was meant
/// assert!(joined(&[record(13, 0, 0, 1, 1), one].concat(), b"ab")?); // 1.b
/// # Ok::<(), glsl_print::Refused>(())
/// ```
///
/// # Errors
///
/// A refusal with a number of 2 to 12, or 15.
pub fn joined(records: &[u8], names: &[u8]) -> Result<bool, Refused> {
    refusal::value(calls::joined(records, names)).map(|value| value == 1)
}

/// The answer of a print; where the room was too small, of another one with the room as long as the text.
fn growing(room: &mut Vec<u8>, print: impl Fn(&mut [u8]) -> i64) -> i64 {
    let answer = print(room);
    match refusal::value(answer) {
        Err(Refused { refusal: Refusal::RoomTooSmall, place }) => {
            room.resize(place, 0);
            print(room)
        }
        _ => answer,
    }
}

/// The written front of the room.
///
/// No byte is trusted to be ASCII: that a text is (letters, digits and marks of GLSL, spaces, tabs and newlines) no theorem says in
/// so many words, and to look costs far less than to print. So neither step below can fail with the proved library, and with
/// another one they panic.
fn written(answer: i64, room: &[u8]) -> Result<&str, Refused> {
    let text = &room[..refusal::value(answer)?];
    Ok(std::str::from_utf8(text).expect("GLSL is ASCII"))
}
