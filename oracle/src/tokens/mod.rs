//! The tokens of a unit or of an expression: a second, small printer from document 01's words, which writes no blanks, but says
//! where each token ends and where one would join the token before it (02, #103).
//!
//! Its text has to be the Rust module's without blanks, but for two type keywords that the module misspells (02, #102); whoever
//! uses it compares them. A negative IntConst is two tokens, its sign and its digits (02, #107).

mod declaration;
mod expr;
mod statement;
mod types;

use crate::joined::Joint;
use crate::read::Tree;
use crate::split::{blanks, split};
use glsl_lang::ast;

/// A text, token by token.
#[derive(Clone, Debug, Default, PartialEq, Eq)]
pub struct Tokens {
    /// All tokens, one directly behind the other.
    pub text: String,
    /// Where each ends, and how it is joined to the one before it, if it is.
    ends: Vec<(usize, Option<Joint>)>,
}

impl Tokens {
    /// Each token, and how it is joined to the one before it, if it is.
    pub fn iter(&self) -> impl Iterator<Item = (&str, Option<Joint>)> {
        let starts = [0].into_iter().chain(self.ends.iter().map(|&(end, _)| end));
        starts.zip(&self.ends).map(|(start, &(end, joint))| (&self.text[start..end], joint))
    }

    /// Each token.
    pub fn words(&self) -> impl Iterator<Item = &str> {
        self.iter().map(|(word, _)| word)
    }

    /// Whether splitting a text by longest match gives these tokens.
    pub fn are_split_from(&self, text: &str) -> bool {
        split(text).is_some_and(|words| words.into_iter().eq(self.words()))
    }

    /// These tokens laid over a text: the blanks that stand before each of them, and behind the last; nothing where the text has
    /// other tokens. `written` says how the text spells a token.
    pub fn blanks_in<'t>(
        &self,
        text: &'t str,
        written: impl for<'w> Fn(&'w str) -> &'w str,
    ) -> Option<(Vec<&'t str>, &'t str)> {
        let mut rest = text;
        let mut before = |word| {
            let (blanks, behind) = blanks(rest);
            rest = behind.strip_prefix(written(word))?;
            Some(blanks)
        };
        let before = self.words().map(&mut before).collect::<Option<_>>()?;
        blanks(rest).1.is_empty().then_some((before, rest))
    }

    /// How tokens are joined to those before them, in their order.
    pub fn joints(&self) -> impl Iterator<Item = Joint> + '_ {
        self.ends.iter().filter_map(|&(_, joint)| joint)
    }

    /// Whether some token is joined to the one before it.
    pub fn are_joined(&self) -> bool {
        self.joints().next().is_some()
    }

    /// Whether some are joined in this way and none in another.
    pub fn are_joined_only_by(&self, joint: Joint) -> bool {
        self.are_joined() && self.joints().all(|other| other == joint)
    }
}

/// The tokens of either, for an expression whatever is given of compounds.
pub fn tree(tree: &Tree, collapse: bool) -> Tokens {
    match tree {
        Tree::Unit(tree) => unit(tree, collapse),
        Tree::Expr(tree) => expr(tree),
    }
}

/// The tokens of a unit, given whether compounds of one statement lose their braces.
pub fn unit(unit: &ast::TranslationUnit, collapse: bool) -> Tokens {
    let mut writer = Writer { tokens: Tokens::default(), collapse };
    writer.each(&unit.0, Writer::external_declaration);
    writer.tokens
}

/// The tokens of an expression, which holds no statement.
pub fn expr(expr: &ast::Expr) -> Tokens {
    let mut writer = Writer { tokens: Tokens::default(), collapse: false };
    writer.expr(expr);
    writer.tokens
}

/// Writes tokens, one tree behind the other.
struct Writer {
    tokens: Tokens,
    /// collapse_single_item_compound_statements.
    collapse: bool,
}

impl Writer {
    /// Writes one token.
    fn put(&mut self, token: &str) {
        let Tokens { text, ends } = &mut self.tokens;
        text.push_str(token);
        ends.push((text.len(), None));
    }

    /// Writes something whose first token is joined so to the one before it.
    fn put_joined(&mut self, joint: Option<Joint>, inside: impl FnOnce(&mut Self)) {
        let first = self.tokens.ends.len();
        inside(self);
        // Within it no joint is at its first token: operands and dots are joined to what stands before them in their expression.
        self.tokens.ends[first].1 = joint;
    }

    /// Writes something between two brackets.
    fn enclosed(&mut self, [open, close]: [&str; 2], inside: impl FnOnce(&mut Self)) {
        self.put(open);
        inside(self);
        self.put(close);
    }

    /// Writes trees.
    fn each<'t, T: 't>(&mut self, trees: impl IntoIterator<Item = &'t T>, write: fn(&mut Self, &T)) {
        for tree in trees {
            write(self, tree);
        }
    }

    /// Writes trees with commas between them.
    fn list<T>(&mut self, trees: &[T], write: fn(&mut Self, &T)) {
        for (at, tree) in trees.iter().enumerate() {
            if at > 0 {
                self.put(",");
            }
            write(self, tree);
        }
    }
}

#[cfg(test)]
mod tests {
    use super::*;
    use crate::answer::Root;
    use crate::split::without_blanks;
    use crate::tree::{all, int, keyword, many, named, plain, rec, var};
    use crate::{grow, mended, read, settings};

    /// The tokens of an expression whose names are these, with a blank between any two.
    fn spaced(records: &[u8], names: &str) -> String {
        let tree = read::expr(records, names.as_bytes()).expect("a good tree").tree;
        expr(&tree).words().collect::<Vec<_>>().join(" ")
    }

    #[test]
    fn constants_are_one_token_but_for_a_sign() {
        for (records, token) in [
            (int(1), "1"),
            (int(u32::MAX), "- 1"),
            (int(1 << 31), "- 2147483648"),
            (rec(3, 0, 0, u32::MAX, 0), "4294967295u"),
            (plain(4, 1), "true"),
            (rec(5, 0, 0, 0, 1), "1."),
            (rec(5, 0, 0, 0, 3), "1.5"),
            (rec(6, 0, 0, 0, 1), "1.lf"),
            (rec(6, 0, 0, 0, 3), "1.5lf"),
        ] {
            assert_eq!(spaced(&records, "1.5"), token);
        }
    }

    #[test]
    fn brackets_and_operators_are_tokens() {
        let negative = all(&[&plain(7, 3), &plain(7, 3), &var(0)]);
        assert_eq!(spaced(&negative, "a"), "- ( - a )");
        let difference = all(&[&plain(8, 15), &var(0), &plain(8, 15), &var(0), &plain(7, 1), &var(0)]);
        assert_eq!(spaced(&difference, "a"), "a - ( a - -- a )");
        let sized = all(&[&plain(20, 1), &plain(21, 2), &many(24, 2), &plain(25, 0), &plain(25, 1), &int(1)]);
        let call = all(&[&many(12, 2), &sized, &named(13, 0, 0), &int(1), &plain(15, 0), &var(0)]);
        assert_eq!(spaced(&call, "a"), "int [ ] [ 1 ] ( 1 . a , a -- )");
        assert_eq!(spaced(&all(&[&many(12, 0), &keyword(50)]), ""), "atomic_uint ( )");
        assert_eq!(spaced(&all(&[&many(12, 0), &keyword(118)]), ""), "uimageBuffer ( )");
        assert_eq!(spaced(&all(&[&many(12, 0), &plain(20, 0), &many(23, 0)]), ""), "struct { } ( )");
    }

    /// `a - (-1).x`, but without brackets: its minus is a binary joint, the Dot another.
    #[test]
    fn joints_stand_at_the_tokens_that_they_join() {
        let records = all(&[&plain(8, 15), &var(0), &named(13, 0, 1), &int(u32::MAX)]);
        let tree = read::expr(&records, b"ax").expect("a good tree").tree;
        let tokens = expr(&tree);
        let joined: Vec<_> = tokens.iter().map(|(word, joint)| (word, joint.is_some())).collect();
        assert_eq!(joined, [("a", false), ("-", false), ("-", true), ("1", false), (".", true), ("x", false)]);
        assert_eq!(tokens.joints().collect::<Vec<_>>(), [Joint::Binary, Joint::Dot]);
    }

    /// Compounds lose their braces or not; blanks are all else that settings change.
    #[test]
    fn grown_trees_have_the_text_of_the_rust_module() {
        for root in [Root::Expr, Root::Unit] {
            for case in 0..3_000 {
                let question = grow::rooted(root, 1, case);
                let whole = read::tree(&question).expect("a good tree");
                let settings = settings::read(&question.settings).expect("good settings").module;
                let tokens = tree(&whole, settings.collapse_single_item_compound_statements);
                let text = mended::tree(&whole, &settings).expect("the tokens are the text's").text;
                assert!(without_blanks(&text).eq(tokens.text.bytes()), "{}", tokens.text);
            }
        }
    }
}
