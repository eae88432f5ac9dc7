//! Questions and answers: what each of document 01's calls gives, with the Rust module as the printer, two of whose words are
//! mended; where needed spaces are asked for, with the second printer.

use crate::joined::is_joined;
use crate::line;
use crate::mended::Counts;
use crate::read::{self, Whole};
use crate::refusal::Refusal;
use crate::settings::{self, Settings};
use crate::spaced::{self, Spaced};

/// Which call is asked.
#[derive(Clone, Copy, Debug, PartialEq, Eq)]
pub enum Root {
    /// Print a unit.
    Unit,
    /// Print an expression, and ask whether it is joined.
    Expr,
}

/// The bytes of a call.
#[derive(Clone, Debug, PartialEq, Eq)]
pub struct Question {
    /// Which call.
    pub root: Root,
    /// The settings record.
    pub settings: Vec<u8>,
    /// The tree's records.
    pub records: Vec<u8>,
    /// The names buffer.
    pub names: Vec<u8>,
}

/// What a call gives.
#[derive(Clone, Debug, PartialEq, Eq)]
pub enum Outcome<T> {
    /// An answer.
    Given(T),
    /// A refusal.
    Refused(Refusal),
    /// The Rust module must not be asked: a float text is not what Display gives.
    NotAsked,
}

/// The answers to a question.
#[derive(Clone, Debug, PartialEq, Eq)]
pub struct Answer {
    /// The text.
    pub text: Outcome<String>,
    /// How many needed spaces the text has (02, #106).
    pub needed: usize,
    /// How often each keyword is mended in the text that the Rust module misspells (02, #102).
    pub mended: Counts,
    /// Whether it is joined; for a unit that is no question.
    pub joined: Option<Outcome<bool>>,
}

/// Answers a question.
///
/// # Panics
///
/// Where the oracle contradicts itself: a tree's tokens are not those of the Rust module's text.
pub fn answer(question: &Question) -> Answer {
    let Question { root, settings, records, names } = question;
    let settings = settings::read(settings);
    let (text, joined) = match root {
        Root::Unit => (printed(settings, read::unit(records, names), spaced::unit), None),
        Root::Expr => {
            let expr = read::expr(records, names);
            let joined = expr.clone().map_or_else(Outcome::Refused, |whole| given(&whole, is_joined));
            (printed(settings, expr, spaced::expr), Some(joined))
        }
    };
    let (text, needed, mended) = match text {
        Outcome::Given(Some(Spaced { text, needed, mended })) => (Outcome::Given(text), needed.len(), mended),
        Outcome::Given(None) => panic!("the tokens are not those of 000's text: {}", line::asked(question)),
        Outcome::Refused(refusal) => (Outcome::Refused(refusal), 0, Counts::default()),
        Outcome::NotAsked => (Outcome::NotAsked, 0, Counts::default()),
    };
    Answer { text, needed, mended, joined }
}

/// The outcome of a print: refusal 1 comes before those of the tree.
fn printed<T, A>(
    settings: Result<Settings, Refusal>,
    tree: Result<Whole<T>, Refusal>,
    show: fn(&T, &Settings) -> A,
) -> Outcome<A> {
    match settings.and_then(|settings| Ok((settings, tree?))) {
        Ok((settings, whole)) => given(&whole, |tree| show(tree, &settings)),
        Err(refusal) => Outcome::Refused(refusal),
    }
}

/// What is said of a good tree, unless the Rust module must not be asked.
fn given<T, A>(whole: &Whole<T>, say: impl FnOnce(&T) -> A) -> Outcome<A> {
    match whole.unlike_display {
        Some(_) => Outcome::NotAsked,
        None => Outcome::Given(say(&whole.tree)),
    }
}
