//! Whether settings are only layout, and the joined question exact of more than expressions in TIGHT (02, #107). That is wider
//! than the request's words: structs in callees' types, whole units, all settings.
//!
//! - Two texts of a unit are equal once blanks are removed if their settings agree on collapse, and two texts of an expression
//!   always, whatever byte 21 is.
//! - A text with neither operator spaces nor needed ones splits into the tree's tokens exactly when nothing in it is joined.
//! - A text with byte 21 at 1 always does, and so does every text of a tree in which nothing is joined.
//! - And under any settings a text does exactly when a blank stands at every place where tokens are joined.
//!
//! Tried on grown trees and on those in which signs meet, each under pairs of random settings. The texts are 000's (two words
//! mended), the joined answers and the places of needed spaces the oracle's own.

use crate::answer::{Question, Root};
use crate::cases::cover::has_struct;
use crate::cases::signs;
use crate::exact::{self, keep};
use crate::grow;
use crate::needed;
use crate::random::Random;
use crate::read::{self, Tree};
use crate::settings::{self, Settings};
use crate::spaced::{self, lay, Spaced};
use crate::split::without_blanks;
use crate::tokens::{self, Tokens};

/// Pairs of settings for each tree.
const PAIRS: usize = 4;

/// What was found on trees of one sort.
#[derive(Clone, Debug, Default, PartialEq, Eq)]
pub struct Found {
    /// The trees.
    trees: u64,
    /// Those with a struct, which the request leaves out of expressions.
    with_structs: u64,
    /// Pairs of settings that a tree was printed under.
    pairs: u64,
    /// Pairs that agree on collapse, which is nothing to expressions.
    agreeing: u64,
    /// Those whose texts are not the same bytes: else there would be nothing to compare.
    different: u64,
    /// Those whose texts differ once blanks are removed.
    unlike: u64,
    /// Pairs that do not agree and whose texts so differ: if there were none, the condition would be idle.
    braced: u64,
    /// Texts that are not their tree's tokens, blanks aside.
    other: u64,
    /// Texts with neither operator spaces nor needed ones, as in TIGHT.
    plain: exact::Found,
    /// Texts with byte 21 at 1.
    spaced: needed::Found,
    /// Texts of trees in which nothing is joined, under any settings.
    apart: u64,
    /// Those that splitting takes apart in another way than into the tree's tokens.
    misread: u64,
    /// Texts under any settings in which no blank stands at some place where tokens are joined.
    lacking: u64,
    /// Texts that split into the tree's tokens and lack a blank so, or do neither.
    mistaken: u64,
    /// The first texts that are unlike, not the tokens, misread or mistaken.
    examples: Vec<String>,
}

/// A number of a run.
pub struct Number {
    /// What is counted.
    pub name: &'static str,
    /// The number itself.
    pub of: fn(&Found) -> u64,
    /// Whether it speaks against a claim, and so must be 0. Every other must not be: it says that a claim was tried at all.
    is_fault: bool,
}

/// All numbers of a run, in the order in which they are shown.
pub const NUMBERS: [Number; 19] = [
    Number { name: "trees", of: |found| found.trees, is_fault: false },
    Number { name: "  with structs", of: |found| found.with_structs, is_fault: false },
    Number { name: "pairs of texts", of: |found| found.pairs, is_fault: false },
    Number { name: "  agreeing", of: |found| found.agreeing, is_fault: false },
    Number { name: "  different", of: |found| found.different, is_fault: false },
    Number { name: "  unlike", of: |found| found.unlike, is_fault: true },
    Number { name: "  unlike by collapse", of: |found| found.braced, is_fault: false },
    Number { name: "texts of other tokens", of: |found| found.other, is_fault: true },
    Number { name: "plain texts, apart", of: |found| found.plain.answers[0], is_fault: false },
    Number { name: "  joined", of: |found| found.plain.answers[1], is_fault: false },
    Number { name: "  wrong", of: |found| found.plain.wrong, is_fault: true },
    Number { name: "texts with byte 21 at 1", of: |found| found.spaced.texts, is_fault: false },
    Number { name: "  spaced", of: |found| found.spaced.spaced, is_fault: false },
    Number { name: "  misread", of: |found| found.spaced.misread, is_fault: true },
    Number { name: "  needless", of: |found| found.spaced.needless, is_fault: true },
    Number { name: "all texts, apart", of: |found| found.apart, is_fault: false },
    Number { name: "  misread apart", of: |found| found.misread, is_fault: true },
    Number { name: "all texts, lacking", of: |found| found.lacking, is_fault: false },
    Number { name: "  mistaken", of: |found| found.mistaken, is_fault: true },
];

/// A tree with its tokens.
struct Sample {
    tree: Tree,
    /// Of a unit those with the braces of compounds of one statement, and those without.
    tokens: Vec<Tokens>,
}

impl Sample {
    fn new(tree: Tree) -> Self {
        let choices: &[bool] = match tree {
            Tree::Unit(_) => &[false, true],
            Tree::Expr(_) => &[false],
        };
        let tokens = choices.iter().map(|&collapse| tokens::tree(&tree, collapse)).collect();
        Self { tree, tokens }
    }

    /// Which tokens a text under these settings has to have: an expression leaves no choice.
    fn choice(&self, settings: &Settings) -> usize {
        match self.tree {
            Tree::Unit(_) => usize::from(settings.module.collapse_single_item_compound_statements),
            Tree::Expr(_) => 0,
        }
    }
}

impl Found {
    /// What was found on the trees of these questions; their settings do not count.
    fn on(questions: impl Iterator<Item = Question>, seed: u64) -> Self {
        let mut found = Self::default();
        for (question, case) in questions.zip(0..) {
            // Another stream than the one that the tree of this seed and case is grown by.
            let mut random = Random::new(!seed, case);
            let sample = Sample::new(read::tree(&question).expect("a good tree"));
            found.trees += 1;
            found.with_structs += u64::from(has_struct(&question));
            for _ in 0..PAIRS {
                found.count(&sample, &[(); 2].map(|()| any_settings(&mut random)));
            }
        }
        found
    }

    /// Counts a tree under a pair of settings.
    fn count(&mut self, sample: &Sample, pair: &[Settings; 2]) {
        self.pairs += 1;
        let choices = pair.each_ref().map(|settings| sample.choice(settings));
        let texts = pair.each_ref().map(|settings| spaced::tree(&sample.tree, settings));
        for ((settings, choice), text) in pair.iter().zip(choices).zip(&texts) {
            self.judge(&sample.tokens[choice], settings, text.as_ref());
        }
        if let [Some(first), Some(second)] = &texts {
            self.compare(&first.text, &second.text, choices[0] == choices[1]);
        }
    }

    /// Counts two texts of a tree, given whether their settings agree on collapse.
    fn compare(&mut self, first: &str, second: &str, agree: bool) {
        let is_unlike = !without_blanks(first).eq(without_blanks(second));
        if !agree {
            self.braced += u64::from(is_unlike);
            return;
        }
        self.agreeing += 1;
        self.different += u64::from(first != second);
        if is_unlike {
            self.unlike += 1;
            keep(&mut self.examples, format!("{first:?}, {second:?}: unlike"));
        }
    }

    /// Counts a text of a tree with these tokens; it has none where they are not those of 000's.
    fn judge(&mut self, tokens: &Tokens, settings: &Settings, spaced: Option<&Spaced>) {
        let Some((spaced, laid)) = spaced.and_then(|spaced| Some((spaced, lay(tokens, &spaced.text)?))) else {
            self.other += 1;
            keep(&mut self.examples, format!("{:?}: has a text of other tokens", tokens.text));
            return;
        };
        let (text, joined) = (&spaced.text, tokens.are_joined());
        if settings.spaces_where_needed {
            self.spaced.judge(tokens, spaced);
        } else if !settings.module.spaces_around_binary_ops {
            self.plain.judge(tokens, text, joined);
        }
        let (is_lacking, is_split) = (!laid.needed.is_empty(), tokens.are_split_from(text));
        self.lacking += u64::from(is_lacking);
        if is_lacking == is_split {
            self.mistaken += 1;
            keep(
                &mut self.examples,
                format!("{text:?}: lacks a blank {is_lacking}, splits into its tokens {is_split}"),
            );
        }
        if !joined {
            self.apart += 1;
            if !is_split {
                self.misread += 1;
                keep(&mut self.examples, format!("{text:?}: nothing is joined, and it splits into others"));
            }
        }
    }

    /// The first texts of every fault.
    pub fn examples(&self) -> impl Iterator<Item = &String> {
        self.examples.iter().chain(&self.plain.examples).chain(&self.spaced.examples)
    }
}

/// Any settings, with needed spaces or without them.
fn any_settings(random: &mut Random) -> Settings {
    let record = settings::any(random);
    settings::with(&record, random.chance(50))
}

/// What was found by sort: on so many grown units and expressions of a seed, and on about as many in which signs meet or
/// nearly do.
pub fn tried(seed: u64, cases: u64) -> [(&'static str, Found); 4] {
    let grown = |root| (0..cases).map(move |case| grow::rooted(root, seed, case));
    [
        ("units", Found::on(grown(Root::Unit), seed)),
        ("with signs", Found::on(some(signs::in_units, seed, cases), seed)),
        ("expressions", Found::on(grown(Root::Expr), seed)),
        ("with signs", Found::on(some(signs::questions, seed, cases), seed)),
    ]
}

/// About so many of the questions, each with the same chance; all of them where they are no more. (In equal steps, frames would
/// be left out, since they come in turns.)
fn some<Q: Iterator<Item = Question>>(questions: fn() -> Q, seed: u64, most: u64) -> impl Iterator<Item = Question> {
    let (all, mut random) = (questions().count(), Random::new(!seed, u64::MAX));
    questions().filter(move |_| (random.between(1, all) as u64) <= most)
}

/// The numbers that are not what they must be over all sorts, and what they are.
pub fn faults<'a>(found: impl Iterator<Item = &'a Found> + Clone) -> Vec<(&'static str, u64)> {
    let sums = NUMBERS.iter().map(|number| (number, found.clone().map(number.of).sum::<u64>()));
    sums.filter(|(number, sum)| number.is_fault != (*sum == 0)).map(|(number, sum)| (number.name.trim(), sum)).collect()
}

#[cfg(test)]
mod tests {
    use super::*;
    use crate::tree::{all, declared, int, keyword, many, plain};

    #[test]
    fn a_small_run_finds_no_fault() {
        let tried = tried(1, 2_000);
        let found = tried.each_ref().map(|(_, found)| found);
        assert_eq!(faults(found.into_iter()), [], "{found:?}");
        assert!(found.iter().all(|found| found.trees > 1_800 && found.plain.answers[1] > 50), "{found:?}");
    }

    #[test]
    fn all_questions_are_taken_where_they_are_few() {
        let all = signs::in_units().count() as u64;
        let taken = |most| some(signs::in_units, 1, most).count() as u64;
        assert_eq!([0, all, u64::MAX].map(taken), [0, all, all]);
        assert!((all / 3..all * 2 / 3).contains(&taken(all / 2)));
    }

    /// `int x;`, and `--1`, which is joined.
    fn samples() -> [Sample; 2] {
        let unit = all(&[&many(80, 1), &declared(0), &keyword(2)]);
        let unit = read::unit(&unit, b"x").expect("a good tree").tree;
        let expr = read::expr(&all(&[&plain(7, 3), &int(u32::MAX)]), b"").expect("a good tree").tree;
        [Tree::Unit(unit), Tree::Expr(expr)].map(Sample::new)
    }

    /// Judges a text in TIGHT, with needed spaces or without them.
    fn judge(found: &mut Found, sample: &Sample, needed: bool, text: &str) {
        let (settings, text) = (settings::with(&settings::TIGHT, needed), text.to_owned());
        let tokens = &sample.tokens[sample.choice(&settings)];
        found.judge(tokens, &settings, Some(&Spaced { text, ..Spaced::default() }));
    }

    #[test]
    fn pairs_that_are_unlike_are_told() {
        let mut found = Found::default();
        for (first, second, agree) in
            [("{a;}", "{a;}", true), ("{a;}", "{\n\ta;\n}", true), ("{a;}", "a;", false), ("{a;}", "a;", true)]
        {
            found.compare(first, second, agree);
        }
        assert_eq!((found.agreeing, found.different, found.unlike, found.braced), (3, 2, 1, 1));
        assert_eq!(found.examples().collect::<Vec<_>>(), [r#""{a;}", "a;": unlike"#]);
    }

    #[test]
    fn texts_that_split_otherwise_are_told() {
        let ([unit, expr], mut found) = (samples(), Found::default());
        // All of these are well.
        judge(&mut found, &unit, false, "int x;");
        judge(&mut found, &unit, true, "int\nx;");
        judge(&mut found, &expr, false, "--1");
        judge(&mut found, &expr, true, "- -1");
        assert_eq!((found.plain.answers, found.spaced.texts, found.apart, found.lacking), ([1, 1], 2, 2, 1));
        assert!(found.examples().next().is_none());
        // A blank too few, where none is a needed space; a needed space that is not asked for; one that is not written.
        judge(&mut found, &unit, false, "intx;");
        judge(&mut found, &expr, false, "- -1");
        judge(&mut found, &expr, true, "--1");
        judge(&mut found, &expr, true, "-1");
        assert_eq!((found.plain.wrong, found.spaced.misread, found.misread, found.other), (2, 1, 1, 1));
        assert_eq!((found.lacking, found.mistaken), (2, 1));
        assert_eq!(found.examples().count(), 6);
        let faults = faults([found].iter());
        let positive = faults.iter().filter(|(_, number)| *number > 0).map(|(name, _)| *name);
        assert!(positive.eq(["texts of other tokens", "wrong", "misread", "misread apart", "mistaken"]), "{faults:?}");
        assert!(faults.contains(&("unlike by collapse", 0)) && !faults.contains(&("needless", 0)), "{faults:?}");
    }
}
