//! Whether the joined question is exact (02, #107): longest-match splitting of an expression's TIGHT text gives its tokens
//! exactly when the answer is no. Tried on all expressions of so many records over the alphabet of [`small`].
//!
//! The answers are the oracle's own; the harness asks a library about the smallest of these expressions.

use crate::cases::small;
use crate::mended;
use crate::print;
use crate::settings;
use crate::spaced::lay;
use crate::tokens::{self, Tokens};
use glsl_lang::ast;
use glsl_lang::transpiler::glsl::FormattingSettings;

/// Examples of a fault that are kept.
const SHOWN: usize = 5;

/// Keeps an example of a fault, unless there are enough.
pub(crate) fn keep(examples: &mut Vec<String>, example: impl Into<String>) {
    if examples.len() < SHOWN {
        examples.push(example.into());
    }
}

/// What was found on expressions of one size.
#[derive(Clone, Debug, Default, PartialEq, Eq)]
pub struct Found {
    /// Expressions that are not joined, and that are.
    pub answers: [u64; 2],
    /// Expressions that are joined though splitting gives their tokens, or not joined though it gives others.
    pub wrong: u64,
    /// Expressions whose tokens are not the Rust module's text.
    pub unlike: u64,
    /// The first texts of either.
    pub examples: Vec<String>,
}

impl Found {
    /// Whether nothing speaks against the claim.
    pub fn is_exact(&self) -> bool {
        self.wrong == 0 && self.unlike == 0
    }

    /// Counts an expression.
    fn count(&mut self, expr: &ast::Expr, tight: &FormattingSettings) {
        let tokens = tokens::expr(expr);
        // What cannot be mended has other tokens, and is counted as such.
        let text = mended::expr(expr, tight).map_or_else(|| print::expr(expr, tight), |mended| mended.text);
        self.judge(&tokens, &text, tokens.are_joined());
    }

    /// Counts a tree of these tokens, of which this answer was given, and this text, in TIGHT or otherwise without operator
    /// spaces and needed ones.
    pub(crate) fn judge(&mut self, tokens: &Tokens, text: &str, joined: bool) {
        self.answers[usize::from(joined)] += 1;
        let fault = if lay(tokens, text).is_none() {
            self.unlike += 1;
            "its tokens have another text"
        } else if joined == tokens.are_split_from(text) {
            self.wrong += 1;
            if joined {
                "joined, and splits into its tokens"
            } else {
                "not joined, and splits into others"
            }
        } else {
            return;
        };
        keep(&mut self.examples, format!("{text}: {fault}"));
    }
}

/// Tries all expressions of exactly so many records.
pub fn of_size(records: usize) -> Found {
    let (tight, mut found) = (settings::tight(), Found::default());
    small::trees(records, |expr| found.count(expr, &tight));
    found
}

#[cfg(test)]
mod tests {
    use super::*;
    use crate::answer::Root;
    use crate::cases::cover::has_struct;
    use crate::{grow, read};

    #[test]
    fn all_expressions_of_up_to_3_records_are_exact() {
        for records in 1..=3 {
            let found = of_size(records);
            assert!(found.is_exact(), "{found:?}");
            assert!(found.answers[0] > 0);
            // `1.x` and `--1` have two records.
            assert_eq!(found.answers[1] > 0, records > 1);
        }
        assert_eq!(of_size(0), Found::default());
    }

    /// The same of large random trees, without structs and with some, which the request leaves out.
    #[test]
    fn grown_expressions_are_exact() {
        let (tight, mut found) = (settings::tight(), [Found::default(), Found::default()]);
        for case in 0..10_000 {
            let question = grow::rooted(Root::Expr, 1, case);
            let tree = read::expr(&question.records, &question.names).expect("a good tree").tree;
            found[usize::from(has_struct(&question))].count(&tree, &tight);
        }
        for (found, least) in found.iter().zip([500, 100]) {
            assert!(found.is_exact() && found.answers.iter().all(|&count| count > least), "{found:?}");
        }
    }

    /// A rule that looks at binary operators alone, as document 01's did, would be found out.
    #[test]
    fn faults_are_told() {
        let one = Box::new(ast::ExprData::IntConst(-1).into());
        let tokens = tokens::expr(&ast::ExprData::Unary(ast::UnaryOpData::Minus.into(), one).into());
        let mut found = Found::default();
        found.judge(&tokens, "--1", false);
        found.judge(&tokens, "--1", true);
        found.judge(&tokens, "-(-1)", true);
        assert_eq!((found.answers, found.wrong, found.unlike, found.is_exact()), ([1, 2], 1, 1, false));
        assert_eq!(found.examples, ["--1: not joined, and splits into others", "-(-1): its tokens have another text"]);
    }
}
