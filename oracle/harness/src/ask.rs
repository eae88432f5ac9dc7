//! One question to both: what the oracle says, and whether the library says the same.

use crate::library::{Check, Print};
use oracle::answer::{answer, Outcome, Question};
use oracle::mended::Counts;
use oracle::read;
use oracle::record::SIZE;
use oracle::refusal::{Reason, Refusal};

/// As many as refusals' numbers go, and 0 for none. (There is no 14.)
pub const COUNTS: usize = 16;

/// What the two said to a question.
#[derive(Default)]
pub struct Said {
    /// How many calls the oracle answers with each number.
    pub calls: [u64; COUNTS],
    /// Whether the tree is good, and its text or record count was compared.
    pub is_good: bool,
    /// Whether it is joined, where that was compared.
    pub joined: Option<bool>,
    /// How many needed spaces are in the text that was compared.
    pub needed: usize,
    /// How often each keyword is mended in it that the Rust module misspells.
    pub mended: Counts,
    /// Prints into a room that fits, a larger one, and one that is a byte too small.
    pub rooms: [u64; 3],
    /// The record at which the oracle finds a reserved name declared.
    pub declared: Option<usize>,
    /// Where they differ first: the oracle's answer and the library's.
    pub difference: Option<[String; 2]>,
}

impl Said {
    /// Counts a call that the oracle answers so.
    fn call(&mut self, oracle: Code, difference: Option<[String; 2]>) {
        self.calls[oracle.number()] += 1;
        if oracle.number() == Reason::Declared as usize {
            self.declared = Some(oracle.place());
        }
        if self.difference.is_none() {
            self.difference = difference;
        }
    }
}

/// An answer of 64 bits.
#[derive(Clone, Copy, PartialEq, Eq)]
struct Code(i64);

impl Code {
    /// A length, or a truth value.
    fn given(value: usize) -> Self {
        // Lengths are below 2^32.
        Self(value as i64)
    }

    fn refused(number: u8, place: usize) -> Self {
        // Places and needed lengths are below 2^32.
        Self(-((i64::from(number) << 32) + place as i64))
    }

    fn refusal(refusal: Refusal) -> Self {
        Self::refused(refusal.number(), refusal.place)
    }

    /// The refusal's number, 0 for none.
    fn number(self) -> usize {
        if self.0 < 0 {
            // The numbers are few.
            (self.0.unsigned_abs() >> 32) as usize
        } else {
            0
        }
    }

    /// The refusal's place.
    fn place(self) -> usize {
        // The low half.
        (self.0.unsigned_abs() & u64::from(u32::MAX)) as usize
    }
}

impl std::fmt::Display for Code {
    fn fmt(&self, f: &mut std::fmt::Formatter<'_>) -> std::fmt::Result {
        match self.number() {
            0 => write!(f, "{}", self.0),
            number => write!(f, "refused {number} at {}", self.place()),
        }
    }
}

/// The oracle's answer and the library's, where they differ.
fn difference(oracle: Code, library: i64, what: &str) -> Option<[String; 2]> {
    let library = Code(library);
    (oracle != library).then(|| [oracle, library].map(|code| format!("{what}: {code}")))
}

/// Asks for the record check.
pub fn check(library: Check, question: &Question) -> Said {
    let refusal = read::refusal(question);
    let oracle = refusal.map_or_else(|| Code::given(question.records.len() / SIZE), Code::refusal);
    let mut said = Said { is_good: refusal.is_none(), ..Said::default() };
    said.call(oracle, difference(oracle, library(question), "records"));
    said
}

/// What a room holds before a call.
const BLANK: u8 = 0xa5;

/// Asks for the text, in a room that fits, a larger one and one that is a byte too small, and for the joined question.
pub fn print(library: Print, joined: Check, question: &Question) -> Said {
    let answer = answer(question);
    let mut said = Said::default();
    match &answer.text {
        Outcome::Given(text) => {
            let (text, length) = (text.as_bytes(), text.len());
            said.is_good = true;
            (said.needed, said.mended) = (answer.needed, answer.mended);
            for room in [length, length + 7] {
                said.print(library, question, room, Code::given(length), text);
            }
            let small = length.checked_sub(1);
            if let Some(small) = small {
                said.print(library, question, small, Code::refused(13, length), &[]);
            }
            said.rooms = [1, 1, small.is_some().into()];
        }
        Outcome::Refused(refusal) => said.print(library, question, 64, Code::refusal(*refusal), &[]),
        Outcome::NotAsked => (),
    }
    match answer.joined {
        Some(Outcome::Given(is_joined)) => {
            said.joined = Some(is_joined);
            said.join(joined, question, Code::given(is_joined.into()));
        }
        Some(Outcome::Refused(refusal)) => said.join(joined, question, Code::refusal(refusal)),
        Some(Outcome::NotAsked) | None => (),
    }
    said
}

impl Said {
    /// A print into a room of this length: the answer and every byte of the room are compared. `text` is what stands at
    /// its front.
    fn print(&mut self, library: Print, question: &Question, room: usize, oracle: Code, text: &[u8]) {
        let mut bytes = vec![BLANK; room];
        let answer = library(question, &mut bytes);
        let difference = difference(oracle, answer, &format!("room {room}")).or_else(|| {
            let expected = [text, &[BLANK].repeat(room - text.len())].concat();
            let shown = |bytes: &[u8]| format!("room {room}: {:?}", String::from_utf8_lossy(bytes));
            (bytes != expected).then(|| [shown(&expected), shown(&bytes)])
        });
        self.call(oracle, difference);
    }

    /// The joined question.
    fn join(&mut self, library: Check, question: &Question, oracle: Code) {
        self.call(oracle, difference(oracle, library(question), "joined"));
    }
}

#[cfg(test)]
mod tests {
    use super::*;
    use oracle::answer::Root;
    use oracle::cases::{tight, with_spaces};
    use oracle::tree::{all, keyword, many, plain, rec, var};

    /// `a--b`, which is joined.
    fn question() -> Question {
        tight(Root::Expr, all(&[&plain(8, 15), &var(0), &plain(7, 3), &var(1)]), "ab")
    }

    /// A printer that knows this question alone.
    fn print_well(_: &Question, room: &mut [u8]) -> i64 {
        let Some(front) = room.first_chunk_mut() else {
            return -(13 << 32) - 4;
        };
        *front = *b"a--b";
        4
    }

    /// Writes where it refuses.
    fn print_too_early(question: &Question, room: &mut [u8]) -> i64 {
        room[0] = b'a';
        print_well(question, room)
    }

    /// Writes behind the text.
    fn print_too_much(question: &Question, room: &mut [u8]) -> i64 {
        let length = print_well(question, room);
        if let Some(last) = room.get_mut(4) {
            *last = 0;
        }
        length
    }

    #[test]
    fn a_good_printer_differs_in_nothing() {
        let said = print(print_well, |_| 1, &question());
        assert!(said.difference.is_none());
        assert_eq!((said.is_good, said.joined, said.calls[0], said.calls[13]), (true, Some(true), 3, 1));
        assert_eq!(said.rooms, [1; 3]);
        assert!(check(|_| 4, &question()).difference.is_none());
    }

    #[test]
    fn needed_spaces_are_counted() {
        let [_, export, open] = with_spaces(question()).map(|question| print(print_well, |_| 1, &question));
        assert_eq!([export.needed, open.needed], [1, 0]);
        // The printer knows nothing of them.
        assert!(export.difference.is_some() && open.difference.is_some());
    }

    #[test]
    fn mended_keywords_are_counted() {
        let call = |variant| tight(Root::Expr, all(&[&many(12, 0), &keyword(variant)]), "");
        let said = [2, 69, 73].map(|variant| print(print_well, |_| 0, &call(variant)));
        assert_eq!(said.map(|said| said.mended), [[0, 0], [1, 0], [0, 1]]);
    }

    /// By the check, the print and the joined question, which also has it where the settings are refused.
    #[test]
    fn declared_names_are_counted_and_their_places_told() {
        let call = tight(Root::Expr, all(&[&many(12, 0), &plain(20, 0), &rec(23, 1, 0, 0, 3)]), "gl_");
        let without_settings = Question { settings: Vec::new(), ..call.clone() };
        let said = [
            check(|_| 3, &call),
            print(print_well, |_| 0, &call),
            print(print_well, |_| 0, &without_settings),
            print(print_well, |_| 1, &question()),
        ];
        let counts = said.each_ref().map(|said| (said.calls[15], said.declared));
        assert_eq!(counts, [(1, Some(2)), (2, Some(2)), (1, Some(2)), (0, None)]);
        let shown = said[0].difference.as_ref().map(|[oracle, library]| format!("{oracle} / {library}"));
        assert_eq!(shown, Some("records: refused 15 at 2 / records: 3".to_owned()));
    }

    #[test]
    fn slips_are_seen() {
        let shown = |said: Said| said.difference.map(|[oracle, library]| format!("{oracle} / {library}"));
        let room = |room: usize, bytes: &str| format!("room {room}: {bytes:?}");
        let blank = |count| "\u{fffd}".repeat(count);
        assert_eq!(shown(print(print_well, |_| 0, &question())), Some("joined: 1 / joined: 0".to_owned()));
        let early = format!("{} / {}", room(3, &blank(3)), room(3, &format!("a{}", blank(2))));
        assert_eq!(shown(print(print_too_early, |_| 1, &question())), Some(early));
        let much = format!("{} / {}", room(11, &format!("a--b{}", blank(7))), room(11, &format!("a--b\0{}", blank(6))));
        assert_eq!(shown(print(print_too_much, |_| 1, &question())), Some(much));
        let refused = shown(check(|_| -(5 << 32) - 2, &question()));
        assert_eq!(refused, Some("records: 4 / records: refused 5 at 2".to_owned()));
    }
}
