//! The second printer, for settings whose byte 21 is 1 (02, #106): the judge's text, with one space before each operand that
//! makes an expression joined by #103's rule, and before the dot after an IntConst; none where operator spaces put one.
//!
//! The tokens are laid over the text, so that both have to say the same of every tree that is printed here.

use crate::mended::{self, Counts, Mended};
use crate::read::Tree;
use crate::settings::Settings;
use crate::tokens::{self, Tokens};
use glsl_lang::ast;

/// A text, where in it needed spaces were put, and what is mended in it.
#[derive(Clone, Debug, Default, PartialEq, Eq)]
pub struct Spaced {
    /// The text.
    pub text: String,
    /// The places of the spaces that the Rust module has not.
    pub needed: Vec<usize>,
    /// How often each keyword is mended that the Rust module misspells.
    pub mended: Counts,
}

/// The text of either; nothing where its tokens had to be laid over the Rust module's text and are not that text's.
pub fn tree(tree: &Tree, settings: &Settings) -> Option<Spaced> {
    match tree {
        Tree::Unit(tree) => unit(tree, settings),
        Tree::Expr(tree) => expr(tree, settings),
    }
}

/// The same of a unit.
pub fn unit(unit: &ast::TranslationUnit, settings: &Settings) -> Option<Spaced> {
    let collapse = settings.module.collapse_single_item_compound_statements;
    spaced(mended::unit(unit, &settings.module)?, settings, || tokens::unit(unit, collapse))
}

/// The same of an expression.
pub fn expr(expr: &ast::Expr, settings: &Settings) -> Option<Spaced> {
    spaced(mended::expr(expr, &settings.module)?, settings, || tokens::expr(expr))
}

/// The judge's text, as it is or with needed spaces.
fn spaced(Mended { text, counts }: Mended, settings: &Settings, tokens: impl FnOnce() -> Tokens) -> Option<Spaced> {
    let spaced =
        if settings.spaces_where_needed { lay(&tokens(), &text)? } else { Spaced { text, ..Spaced::default() } };
    Some(Spaced { mended: counts, ..spaced })
}

/// Lays tokens over a text that has blanks between them, and puts a space where one is needed and none stands; nothing where
/// the text has other tokens.
pub fn lay(tokens: &Tokens, text: &str) -> Option<Spaced> {
    let (before, last) = tokens.blanks_in(text, |word| word)?;
    let mut spaced = Spaced::default();
    for ((word, joint), blanks) in tokens.iter().zip(before) {
        spaced.text.push_str(blanks);
        if joint.is_some() && blanks.is_empty() {
            spaced.needed.push(spaced.text.len());
            spaced.text.push(' ');
        }
        spaced.text.push_str(word);
    }
    spaced.text.push_str(last);
    Some(spaced)
}

#[cfg(test)]
mod tests {
    use super::*;
    use crate::tree::{all, named, plain, var};
    use crate::{read, settings};

    /// `a - --b.x` of these records, as tokens.
    fn tokens() -> Tokens {
        let records = all(&[&plain(8, 15), &var(0), &plain(7, 1), &named(13, 0, 2), &var(1)]);
        tokens::expr(&read::expr(&records, b"abx").expect("a good tree").tree)
    }

    #[test]
    fn a_space_is_put_where_none_stands() {
        let put = |text| lay(&tokens(), text).map(|Spaced { text, needed, .. }| (text, needed));
        assert_eq!(put("a---b.x"), Some(("a- --b.x".to_owned(), vec![2])));
        assert_eq!(put("a - --b.x\n"), Some(("a - --b.x\n".to_owned(), vec![])));
        assert_eq!(put("\ta-\n--b.x"), Some(("\ta-\n--b.x".to_owned(), vec![])));
    }

    #[test]
    fn other_tokens_are_told() {
        for text in ["", "a---b.", "a---b.xx", "a-- -b.x", "a---b.y", "a---b.x;", "a---b.x x"] {
            assert_eq!(lay(&tokens(), text), None, "{text}");
        }
    }

    #[test]
    fn nothing_is_put_where_it_is_not_asked_for() {
        let tree = read::expr(&all(&[&named(13, 0, 0), &crate::tree::int(1)]), b"x").expect("a good tree").tree;
        for (byte, text) in [(0, "1.x"), (1, "1 .x")] {
            let settings = settings::with(&settings::TIGHT, byte == 1);
            assert_eq!(expr(&tree, &settings).map(|spaced| spaced.text).as_deref(), Some(text));
        }
    }
}
