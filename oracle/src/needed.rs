//! Whether needed spaces (02, #106) suffice and none is in vain: with byte 21 at 1, longest-match splitting of a text gives the
//! tree's tokens, and without any one of the needed spaces it gives others. Tried on all expressions of so many records over
//! the alphabet of [`small`], in TIGHT and in OPEN.

use crate::cases::small;
use crate::exact::keep;
use crate::settings::{self, Settings};
use crate::spaced::{self, Spaced};
use crate::split::without_blanks;
use crate::tokens::{self, Tokens};
use glsl_lang::ast;

/// What was found on texts under the same settings.
#[derive(Clone, Debug, Default, PartialEq, Eq)]
pub struct Found {
    /// The texts.
    pub texts: u64,
    /// Texts with needed spaces.
    pub spaced: u64,
    /// Needed spaces.
    pub spaces: u64,
    /// Texts that splitting takes apart in another way than into the tree's tokens.
    pub misread: u64,
    /// Needed spaces without which the text splits into the same tokens.
    pub needless: u64,
    /// Texts that are not the tokens, once blanks are removed.
    pub unlike: u64,
    /// The first texts of these three sorts.
    pub examples: Vec<String>,
}

impl Found {
    /// Whether nothing speaks against the claim.
    pub fn is_good(&self) -> bool {
        [self.misread, self.needless, self.unlike] == [0; 3]
    }

    /// Counts an expression.
    fn count(&mut self, expr: &ast::Expr, tokens: &Tokens, settings: &Settings) {
        match spaced::expr(expr, settings) {
            Some(spaced) => self.judge(tokens, &spaced),
            None => {
                self.unlike += 1;
                keep(&mut self.examples, &tokens.text);
            }
        }
    }

    /// Counts a text of a tree with these tokens.
    pub(crate) fn judge(&mut self, tokens: &Tokens, Spaced { text, needed, .. }: &Spaced) {
        self.texts += 1;
        self.spaced += u64::from(!needed.is_empty());
        self.spaces += needed.len() as u64;
        let is_misread = !tokens.are_split_from(text);
        let is_unlike = !without_blanks(text).eq(tokens.text.bytes());
        let dropped = needed.iter().map(|&at| [&text[..at], &text[at + 1..]].concat());
        let needless = dropped.filter(|text| tokens.are_split_from(text)).count() as u64;
        self.misread += u64::from(is_misread);
        self.unlike += u64::from(is_unlike);
        self.needless += needless;
        if is_misread || is_unlike || needless > 0 {
            keep(&mut self.examples, text);
        }
    }
}

/// Tries all expressions of exactly so many records: in TIGHT, and in OPEN, which has operator spaces.
pub fn of_size(records: usize) -> [Found; 2] {
    let mut found = [Found::default(), Found::default()];
    let settings = [settings::TIGHT, settings::OPEN].map(|record| settings::with(&record, true));
    small::trees(records, |expr| {
        let tokens = tokens::expr(expr);
        for (found, settings) in found.iter_mut().zip(&settings) {
            found.count(expr, &tokens, settings);
        }
    });
    found
}

#[cfg(test)]
mod tests {
    use super::*;
    use crate::answer::Root;
    use crate::{grow, read};

    #[test]
    fn spaces_in_expressions_of_up_to_3_records_are_needed_and_suffice() {
        for records in 1..=3 {
            let [tight, open] = of_size(records);
            assert!(tight.is_good() && open.is_good(), "{tight:?}, {open:?}");
            // `1 .x` and `- -1` have two records.
            assert_eq!([tight.spaced, open.spaced].map(|spaced| spaced > 0), [records > 1; 2]);
            // Operator spaces help binary operators, which have three.
            assert_eq!(tight.spaces > open.spaces, records == 3);
        }
    }

    /// The same of large random trees under any settings, of units too.
    #[test]
    fn spaces_in_grown_trees_are_needed_and_suffice() {
        for root in [Root::Expr, Root::Unit] {
            let mut found = Found::default();
            for case in 0..10_000 {
                let question = grow::rooted(root, 1, case);
                let settings = settings::read(&question.settings).expect("good settings");
                let settings = Settings { spaces_where_needed: true, ..settings };
                let tree = read::tree(&question).expect("a good tree");
                let tokens = tokens::tree(&tree, settings.module.collapse_single_item_compound_statements);
                let spaced = spaced::tree(&tree, &settings).expect("the tokens are the text's");
                found.judge(&tokens, &spaced);
            }
            assert!(found.is_good(), "{found:?}");
            assert!(found.spaced > 200, "{}", found.spaced);
        }
    }

    #[test]
    fn faults_are_told() {
        let one = Box::new(ast::ExprData::IntConst(-1).into());
        let tokens = tokens::expr(&ast::ExprData::Unary(ast::UnaryOpData::Minus.into(), one).into());
        let mut found = Found::default();
        // One that is well; one space too few, one too many; another text.
        for (text, needed) in [("- -1", vec![1]), ("--1", vec![]), ("- - 1", vec![1, 3]), ("- -2", vec![])] {
            found.judge(&tokens, &Spaced { text: text.to_owned(), needed, ..Spaced::default() });
        }
        assert_eq!((found.texts, found.spaced, found.spaces), (4, 2, 3));
        assert_eq!((found.misread, found.needless, found.unlike, found.is_good()), (2, 1, 1, false));
        assert_eq!(found.examples, ["--1", "- - 1", "- -2"]);
    }
}
