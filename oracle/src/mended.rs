//! The judge's texts: those of the Rust module, with the two type keywords mended that it misspells (02, #102). They are the
//! module's own, untouched, wherever neither keyword stands in the tree.
//!
//! Where one does, the tokens, which have section 3.6's words, are laid over the module's text: so a word is mended where the
//! keyword stands and nowhere else, since the misspellings are good names.

use crate::print;
use crate::read::Tree;
use crate::tables::MISSPELT;
use crate::tokens::{self, Tokens};
use glsl_lang::ast;
use glsl_lang::transpiler::glsl::FormattingSettings;

/// How often each of [`MISSPELT`] is mended in a text.
pub type Counts = [usize; MISSPELT.len()];

/// A text, and what is mended in it.
#[derive(Clone, Debug, Default, PartialEq, Eq)]
pub struct Mended {
    /// The text.
    pub text: String,
    /// How often each keyword is mended in it.
    pub counts: Counts,
}

/// The text of either; nothing where a keyword has to be mended and the tokens are not those of the Rust module's text.
pub fn tree(tree: &Tree, settings: &FormattingSettings) -> Option<Mended> {
    match tree {
        Tree::Unit(tree) => unit(tree, settings),
        Tree::Expr(tree) => expr(tree, settings),
    }
}

/// The same of a unit.
pub fn unit(unit: &ast::TranslationUnit, settings: &FormattingSettings) -> Option<Mended> {
    let collapse = settings.collapse_single_item_compound_statements;
    mended(print::unit(unit, settings), || tokens::unit(unit, collapse))
}

/// The same of an expression.
pub fn expr(expr: &ast::Expr, settings: &FormattingSettings) -> Option<Mended> {
    mended(print::expr(expr, settings), || tokens::expr(expr))
}

/// The Rust module's text, as it is or with its keywords mended.
fn mended(text: String, tokens: impl FnOnce() -> Tokens) -> Option<Mended> {
    // The module writes a misspelling for every keyword that it misspells; a name may be all that it is.
    let is_suspect = MISSPELT.iter().any(|(_, misspelt)| text.contains(misspelt));
    match is_suspect.then(tokens).filter(|tokens| tokens.words().any(|word| misspelling(word).is_some())) {
        Some(tokens) => mend(&tokens, &text),
        None => Some(Mended { text, ..Mended::default() }),
    }
}

/// Which of [`MISSPELT`] a token is, and how the Rust module spells it. No name has the keyword's own spelling.
fn misspelling(word: &str) -> Option<(usize, &'static str)> {
    let at = MISSPELT.iter().position(|&(keyword, _)| keyword == word)?;
    Some((at, MISSPELT[at].1))
}

/// Lays tokens over a text of the Rust module, and puts a keyword's own word where it misspells it; nothing where the text has
/// other tokens.
fn mend(tokens: &Tokens, text: &str) -> Option<Mended> {
    let (before, last) = tokens.blanks_in(text, |word| misspelling(word).map_or(word, |(_, misspelt)| misspelt))?;
    let mut mended = Mended::default();
    for (word, blanks) in tokens.words().zip(before) {
        mended.text.extend([blanks, word]);
        if let Some((at, _)) = misspelling(word) {
            mended.counts[at] += 1;
        }
    }
    mended.text.push_str(last);
    Some(mended)
}

#[cfg(test)]
mod tests {
    use super::*;
    use crate::answer::{Question, Root};
    use crate::cases::cover::records;
    use crate::record::{Record, SIZE};
    use crate::tree::{all, keyword, many, plain, rec};
    use crate::{grow, read, settings};

    /// Both misspellings, one behind the other.
    const NAMES: &[u8] = b"isampler2MSusamplerDMSArray";

    /// A keyword beside one of these names, which is then a type's name and beside itself: `isampler2DMS isampler2MS;isampler2MS
    /// isampler2MS;`.
    fn beside(variant: u8, (a, b): (u32, u32)) -> ast::TranslationUnit {
        let declared = all(&[&plain(47, 1), &plain(42, 0), &rec(43, 1, 0, a, b), &plain(31, 0)]);
        let name = all(&[&plain(20, 0), &rec(22, 0, 0, a, b)]);
        let unit = all(&[&many(80, 2), &declared, &keyword(variant), &declared, &name]);
        read::unit(&unit, NAMES).expect("a good tree").tree
    }

    #[test]
    fn keywords_are_mended_and_names_stay() {
        let [first, second] = [(0, 11), (11, 16)];
        for (variant, name, text, counts) in [
            (69, first, "isampler2DMS isampler2MS;isampler2MS isampler2MS;", [1, 0]),
            (73, first, "usampler2DMSArray isampler2MS;isampler2MS isampler2MS;", [0, 1]),
            (69, second, "isampler2DMS usamplerDMSArray;usamplerDMSArray usamplerDMSArray;", [1, 0]),
            (73, second, "usampler2DMSArray usamplerDMSArray;usamplerDMSArray usamplerDMSArray;", [0, 1]),
        ] {
            let mended = unit(&beside(variant, name), &settings::tight());
            assert_eq!(mended, Some(Mended { text: text.to_owned(), counts }));
        }
    }

    /// Tokens that are asked for where nothing is to be mended.
    fn unasked() -> Tokens {
        panic!("tokens were laid over a text that holds no misspelling");
    }

    #[test]
    fn other_texts_are_untouched() {
        // No word of these is misspelt, and they are no text of any tree.
        for text in ["", "isampler2DMS ( ", "\n\tusampler2DMSArray  x"] {
            assert_eq!(mended(text.to_owned(), unasked), Some(Mended { text: text.to_owned(), counts: [0; 2] }));
        }
        // Here a name has the spelling, and all keywords are well: whatever the tokens, the text is not compared with them.
        let name = tokens::expr(&ast::ExprData::variable("isampler2MS").into());
        let text = " isampler2MS and more".to_owned();
        assert_eq!(mended(text.clone(), || name), Some(Mended { text, counts: [0; 2] }));
    }

    #[test]
    fn other_tokens_are_told() {
        let call = read::expr(&all(&[&many(12, 0), &keyword(69)]), b"").expect("a good tree").tree;
        let put = |text: &str| mended(text.to_owned(), || tokens::expr(&call));
        for text in ["isampler2MS()", "\tisampler2MS (\n)\n"] {
            let mended = text.replace("isampler2MS", "isampler2DMS");
            assert_eq!(put(text), Some(Mended { text: mended, counts: [1, 0] }));
        }
        for text in
            ["isampler2MS(", "isampler2MS()x", "xisampler2MS()", "usamplerDMSArray()", "isampler2DMS(isampler2MS)"]
        {
            assert_eq!(put(text), None, "{text}");
        }
    }

    /// The variants of the keywords.
    const VARIANTS: [u8; 2] = [69, 73];

    /// The same without tokens: the Rust module's text of the tree in which a type's name, such as no grown tree has, stands for
    /// each keyword; and in that text the keyword's word for the name.
    fn by_names(question: &Question, settings: &FormattingSettings) -> String {
        let stand_ins = ["STANDS_FOR_69", "STANDS_FOR_73"];
        let (mut question, end) = (question.clone(), question.names.len());
        question.names.extend(stand_ins.concat().bytes());
        for record in question.records.as_chunks_mut::<SIZE>().0 {
            for (at, variant) in VARIANTS.into_iter().enumerate() {
                if record[..2] == [21, variant] {
                    let [a, b] = [end + at * stand_ins[0].len(), stand_ins[at].len()];
                    let [a, b] = [a, b].map(|number| u32::try_from(number).expect("names are few"));
                    *record = Record { kind: 22, a, b, ..Record::default() }.to_bytes();
                }
            }
        }
        let text = print::tree(&read::tree(&question).expect("a good tree"), settings);
        stand_ins.iter().zip(MISSPELT).fold(text, |text, (stand_in, (keyword, _))| text.replace(stand_in, keyword))
    }

    /// Exactly the trees that hold one of the keywords are mended, as often as they do.
    #[test]
    fn grown_trees_are_mended_where_they_hold_a_keyword() {
        let (mut mended, mut untouched) = (0, 0);
        let grown = |root| (0..6_000).map(move |case| grow::rooted(root, 1, case));
        for question in grown(Root::Expr).chain(grown(Root::Unit)) {
            let settings = settings::read(&question.settings).expect("good settings").module;
            let whole = read::tree(&question).expect("a good tree");
            let found = tree(&whole, &settings).expect("the tokens are the text's");
            let held =
                VARIANTS.map(|variant| records(&question).filter(|r| (r.kind, r.variant) == (21, variant)).count());
            assert_eq!(found.counts, held, "{}", found.text);
            assert_eq!(found.text, by_names(&question, &settings));
            let is_mended = held != [0; 2];
            assert_eq!(found.text != print::tree(&whole, &settings), is_mended);
            mended += u64::from(is_mended);
            untouched += u64::from(!is_mended);
        }
        assert!(mended > 100 && untouched > 10_000, "{mended} and {untouched}");
    }
}
