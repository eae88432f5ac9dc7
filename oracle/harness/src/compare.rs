//! Asks the library and the oracle the same questions, and counts.

use crate::ask::{Said, COUNTS};
use oracle::answer::{Question, Root};
use oracle::cases::{cover, damage, large, limits, reserved, short, signs, small, with_spaces};
use oracle::grow;
use oracle::line;
use oracle::random::Random;
use oracle::refusal;
use oracle::settings;
use oracle::tables::MISSPELT;
use std::collections::BTreeMap;

/// Grown trees from which the smallest ones with each kind and variant are taken.
const GROWN_TO_CHOOSE: u64 = 60_000;

/// The sort that is about the joined question: a run in which it is answered one way alone compares too little. (Its questions
/// are the same in every run, so that only happens if they are changed.)
const SIGNS: &str = "signs";

/// All expressions of up to so many records are asked about.
const SMALL: usize = 4;

/// Questions of one sort.
struct Family<'a> {
    name: &'static str,
    questions: Box<dyn Iterator<Item = Question> + 'a>,
}

/// Counts of answers.
#[derive(Default)]
struct Tally {
    questions: u64,
    /// Calls by the number of the oracle's refusal, 0 for none.
    calls: [u64; COUNTS],
    /// Joined questions that the oracle answers by no, and by yes.
    joined: [u64; 2],
    /// Questions whose text has needed spaces.
    spaced: u64,
    /// Questions in whose text a keyword is mended that the Rust module misspells, and those of each keyword.
    mended: u64,
    keywords: [u64; MISSPELT.len()],
    /// Prints into a room that fits, a larger one, and one that is a byte too small.
    rooms: [u64; 3],
    differing: u64,
    /// The shortest question on which the answers differ, with both.
    shortest: Option<(Question, [String; 2])>,
}

impl Tally {
    fn count(&mut self, question: Question, said: Said) {
        self.questions += 1;
        add(&mut self.calls, &said.calls);
        add(&mut self.rooms, &said.rooms);
        if let Some(is_joined) = said.joined {
            self.joined[usize::from(is_joined)] += 1;
        }
        self.spaced += u64::from(said.needed > 0);
        let keywords = said.mended.map(|count| u64::from(count > 0));
        self.mended += u64::from(keywords.contains(&1));
        add(&mut self.keywords, &keywords);
        let Some(difference) = said.difference else {
            return;
        };
        self.differing += 1;
        let length = |question: &Question| question.records.len() + question.names.len();
        if self.shortest.as_ref().is_none_or(|(shortest, _)| length(&question) < length(shortest)) {
            self.shortest = Some((question, difference));
        }
    }

    /// Counts another tally's questions too, but for which is the shortest.
    fn add(&mut self, other: &Self) {
        self.questions += other.questions;
        self.differing += other.differing;
        self.spaced += other.spaced;
        self.mended += other.mended;
        add(&mut self.keywords, &other.keywords);
        add(&mut self.calls, &other.calls);
        add(&mut self.joined, &other.joined);
        add(&mut self.rooms, &other.rooms);
    }

    /// A line of the table, and the shortest question that differs.
    fn print(&self, name: &str) {
        let calls: u64 = self.calls.iter().sum();
        let [no, yes] = self.joined;
        let columns = [self.questions, calls, self.differing, no, yes, self.spaced, self.mended];
        let columns = columns.into_iter().chain(numbers().map(|number| self.calls[number]));
        println!("{name:<18}{}", columns.map(|count| format!("{count:>9}")).collect::<String>());
        if let Some((question, [oracle, library])) = &self.shortest {
            // As `oracle answer` reads it.
            println!("    {}\n    oracle:  {oracle}\n    library: {library}", line::asked(question));
        }
    }
}

/// Adds counts to sums.
fn add(sums: &mut [u64], counts: &[u64]) {
    for (sum, count) in sums.iter_mut().zip(counts) {
        *sum += count;
    }
}

/// The numbers that calls are counted by: 0 for none, then the refusals'.
fn numbers() -> impl Iterator<Item = usize> {
    [0].into_iter().chain(refusal::NUMBERS.map(usize::from))
}

/// The line above the tallies'.
fn heading(root: Root) -> String {
    let columns = ["asked", "calls", "differ", "apart", "joined", "spaced", "mended", "good"];
    let columns = columns.into_iter().map(str::to_owned).chain(numbers().skip(1).map(|number| number.to_string()));
    format!("{:<18}{}", format!("{root:?} questions"), columns.map(|word| format!("{word:>9}")).collect::<String>())
}

/// How often good trees held each kind and variant, and how often they were printed with each value of each settings byte; how
/// often they held each kind and variant with a reserved name, and how often each was refused for declaring one.
struct Met {
    pairs: BTreeMap<(u8, u8), u64>,
    settings: BTreeMap<(usize, u8), u64>,
    reserved: BTreeMap<(u8, u8), u64>,
    declared: BTreeMap<(u8, u8), u64>,
}

impl Met {
    fn none(root: Root) -> Self {
        Self {
            pairs: cover::pairs(root).map(|pair| (pair, 0)).collect(),
            settings: settings::values().map(|value| (value, 0)).collect(),
            reserved: reserved::using_pairs(root).map(|pair| (pair, 0)).collect(),
            declared: reserved::declaring_pairs(root).map(|pair| (pair, 0)).collect(),
        }
    }

    fn count(&mut self, question: &Question, said: &Said) {
        if said.is_good {
            self.count_good(question, said.rooms != [0; 3]);
        }
        if let Some(record) = said.declared.and_then(|place| cover::records(question).nth(place)) {
            *self.declared.entry((record.kind, record.variant)).or_default() += 1;
        }
    }

    fn count_good(&mut self, question: &Question, is_printed: bool) {
        for record in cover::records(question) {
            *self.pairs.entry((record.kind, record.variant)).or_default() += 1;
        }
        for pair in reserved::pairs_in(question) {
            *self.reserved.entry(pair).or_default() += 1;
        }
        if is_printed {
            for value in question.settings.iter().copied().enumerate() {
                *self.settings.entry(value).or_default() += 1;
            }
        }
    }

    /// Prints how many of each were met, which were not, and the pairs' counts by kind. Whether all were met; settings are only
    /// asked for where something was printed.
    fn print(&self, is_printed: bool) -> bool {
        let all_pairs = missing("pairs of kind and variant met in good trees", &self.pairs) == 0;
        let mut kinds: BTreeMap<u8, Vec<u64>> = BTreeMap::new();
        for (&(kind, _), &count) in &self.pairs {
            kinds.entry(kind).or_default().push(count);
        }
        let shown = kinds.iter().map(|(kind, counts)| {
            let (variants, least) = (counts.len(), counts.iter().min().copied().unwrap_or(0));
            format!("{kind}: {variants} from {least}")
        });
        println!("    kind: variants from the least count: {}", shown.collect::<Vec<_>>().join("; "));
        let all_reserved = missing("pairs with a reserved name met in good trees", &self.reserved) == 0;
        let all_declared = missing("pairs refused for a reserved name that they declare", &self.declared) == 0;
        let all_settings = !is_printed || missing("settings values met in good trees", &self.settings) == 0;
        all_pairs && all_reserved && all_declared && all_settings
    }
}

/// Prints how many of these were met, and which were not; how many were not.
fn missing<T: std::fmt::Debug>(what: &str, counts: &BTreeMap<T, u64>) -> usize {
    let missing: Vec<_> = counts.iter().filter(|(_, &count)| count == 0).map(|(one, _)| one).collect();
    let least = counts.values().min().copied().unwrap_or(0);
    println!("{what}: {} of {}, each at least {least} times", counts.len() - missing.len(), counts.len());
    if !missing.is_empty() {
        println!("    not met: {missing:?}");
    }
    missing.len()
}

/// Whether questions of [`SIGNS`] had both joined answers, given how often no and how often yes; says so where they had not.
fn is_joined_both_ways([apart, joined]: [u64; 2]) -> bool {
    let both = apart > 0 && joined > 0;
    if !both {
        println!("{SIGNS}: {apart} apart and {joined} joined, but both must be met");
    }
    both
}

/// Whether texts had needed spaces, given how many; says so where none had.
fn is_spaced(texts: u64) -> bool {
    if texts == 0 {
        println!("no text had a needed space, but some must");
    }
    texts > 0
}

/// Prints how many texts had each keyword that is mended. Whether each had some.
fn are_mended(texts: [u64; MISSPELT.len()]) -> bool {
    let shown = MISSPELT.iter().zip(texts).map(|((keyword, _), count)| format!("{count} have {keyword}"));
    println!("texts in which a keyword is mended: {}", shown.collect::<Vec<_>>().join(", "));
    let all = !texts.contains(&0);
    if !all {
        println!("    but each must be met");
    }
    all
}

/// Asks everything with this root; prints a line for each family, the sum, and the shortest question of each family that
/// differs. Whether nothing differs, every kind and variant, every one with a reserved name that may have it, and every value of
/// every settings byte, was met in good trees, every one that declares its name was refused for a reserved one, expressions in
/// which signs meet were joined as well as apart, needed spaces were printed, and each keyword that is mended.
pub fn run(root: Root, seed: u64, cases: u64, ask: impl Fn(&Question) -> Said) -> bool {
    let trees = cover::smallest(root, seed, GROWN_TO_CHOOSE);
    let words = [limits::near_words(), reserved::texts()].concat();
    let every_byte: Vec<u8> = (0..=255).collect();
    let (mut all, mut met, mut signs) = (Tally::default(), Met::none(root), [0; 2]);
    println!("{}", heading(root));
    for family in families(root, seed, cases, &trees, &words, &every_byte) {
        let mut tally = Tally::default();
        for question in family.questions.filter(|question| question.root == root) {
            let said = ask(&question);
            met.count(&question, &said);
            tally.count(question, said);
        }
        if tally.questions > 0 {
            tally.print(family.name);
        }
        if family.name == SIGNS {
            signs = tally.joined;
        }
        all.add(&tally);
    }
    all.print("all");
    let [fitting, larger, small] = all.rooms;
    let is_printed = fitting > 0;
    if is_printed {
        println!("prints of good trees into rooms: {fitting} that fit, {larger} larger, {small} a byte too small");
    }
    // The joined question is asked beside the prints, about expressions.
    let is_asked = is_printed && root == Root::Expr;
    let both_ways = !is_asked || is_joined_both_ways(signs);
    let spaced = !is_printed || is_spaced(all.spaced);
    let mended = !is_printed || are_mended(all.keywords);
    met.print(is_printed) && both_ways && spaced && mended && all.differing == 0
}

/// All questions, with other roots too. `trees` show every kind and variant. Settings of 22 bytes are among those of grown trees
/// and of their damages; trees in which signs meet are asked for with them too; to the others they are given at random.
fn families<'a>(
    root: Root,
    seed: u64,
    cases: u64,
    trees: &'a [Question],
    words: &'a [Vec<u8>],
    every_byte: &'a [u8],
) -> Vec<Family<'a>> {
    let family = |name, questions| Family { name, questions };
    let grown = move || (0..cases).map(move |case| grow::rooted(root, seed, case));
    let others = [Root::Unit, Root::Expr].into_iter().filter(move |&other| other != root);
    let others = others.flat_map(move |other| (0..cases).map(move |case| grow::rooted(other, seed, case)));
    let of_grown = [
        family("whole", Box::new(grown())),
        family("of the other call", Box::new(others.map(|question| damage::other_root(&question)))),
        family("record bytes", Box::new(trees.iter().flat_map(|tree| damage::record_bytes(tree, every_byte)))),
        family("name bytes", Box::new(trees.iter().flat_map(|tree| damage::name_bytes(tree, every_byte)))),
        family("cuts", Box::new(trees.iter().flat_map(damage::cuts))),
        family("moves", Box::new(trees.iter().flat_map(damage::moves))),
        family("fields", Box::new(trees.iter().flat_map(damage::fields))),
        family("settings", Box::new(trees.iter().flat_map(damage::settings))),
        family("words", Box::new(trees.iter().flat_map(|tree| damage::texts(tree, words)))),
        family("several damages", Box::new(grown().zip(0..).flat_map(move |(tree, case)| several(seed, case, &tree)))),
    ];
    let of_others = others_in_tight(root, seed, cases, trees).into_iter().map(|family| lengthened(seed, family));
    of_grown.into_iter().chain(of_others).chain(of_signs()).collect()
}

/// Families whose questions are all in TIGHT, or in OPEN.
fn others_in_tight(root: Root, seed: u64, cases: u64, trees: &[Question]) -> [Family<'_>; 12] {
    let family = |name, questions| Family { name, questions };
    [
        family("one record", Box::new(short::one())),
        family("in each place", Box::new(short::in_places())),
        family("two in places", Box::new(short::two_in_places())),
        family("deep", Box::new(limits::deep().chain(limits::deep_trees(trees)))),
        family("levels", Box::new(limits::levels())),
        family("sizes", Box::new(limits::sizes())),
        family("numbers", Box::new(limits::whole_numbers())),
        family("long texts", Box::new(limits::long_texts())),
        family("short texts", Box::new(limits::short_texts())),
        family("offsets", Box::new(limits::offsets())),
        family("reserved", Box::new(reserved::questions(root))),
        family("large", Box::new((0..cases.div_ceil(1_000)).flat_map(move |case| large_ones(root, seed, case)))),
    ]
}

/// Families of trees in which signs may meet, each asked for without needed spaces and with them.
fn of_signs<'a>() -> [Family<'a>; 3] {
    let signs = signs::questions().chain(signs::in_units());
    [
        Family { name: SIGNS, questions: Box::new(signs.flat_map(with_spaces)) },
        Family { name: "deepest", questions: Box::new(limits::deepest().flat_map(with_spaces)) },
        Family { name: "all small", questions: Box::new(small::questions(SMALL).into_iter().flat_map(with_spaces)) },
    ]
}

/// Gives settings of 21 bytes a byte 21, of 0 or of 1, or none. At random: in turns, since trees of some families come by
/// threes, each sort would have its own.
fn lengthened(seed: u64, family: Family<'_>) -> Family<'_> {
    let questions = family.questions.zip(0..).map(move |(mut question, case)| {
        if question.settings.len() == settings::SIZE {
            let byte = Random::new(seed, case).weighted(&[(1, None), (1, Some(0)), (1, Some(1))]);
            question.settings.extend(byte.flatten());
        }
        question
    });
    Family { questions: Box::new(questions), ..family }
}

/// A tree with one to four damages, twice each.
fn several(seed: u64, case: u64, tree: &Question) -> Vec<Question> {
    let mut random = Random::new(!seed, case);
    [1, 1, 2, 2, 3, 3, 4, 4].map(|times| damage::several(tree, times, &mut random)).to_vec()
}

/// Large trees, whole and with damages.
fn large_ones(root: Root, seed: u64, case: u64) -> Vec<Question> {
    let mut random = Random::new(!seed, case);
    let seed = seed ^ case;
    let trees = [large::grown(root, seed, 4_000), large::shader(root, seed, 4_096), large::nested(seed, 4_096)];
    let damaged = trees.iter().flat_map(|tree| [1, 1, 1, 1, 2, 2, 3].map(|times| (tree, times)));
    let damaged: Vec<Question> = damaged.map(|(tree, times)| damage::several(tree, times, &mut random)).collect();
    trees.into_iter().chain(damaged).collect()
}

#[cfg(test)]
mod tests {
    use super::*;
    use std::collections::BTreeSet;

    #[test]
    fn signs_are_among_the_questions() {
        let families = families(Root::Expr, 1, 0, &[], &[], &[]);
        let signs = families.into_iter().find(|family| family.name == SIGNS);
        assert!(signs.is_some_and(|family| family.questions.count() > 100_000));
    }

    /// None, 0 and 1, to each place of a family that comes by threes.
    #[test]
    fn settings_are_lengthened_in_every_way() {
        let numbers = Family { name: "numbers", questions: Box::new(limits::whole_numbers()) };
        let ways = lengthened(1, numbers)
            .questions
            .enumerate()
            .map(|(at, question)| (at % 3, question.settings.get(settings::SPACES_WHERE_NEEDED).copied()));
        assert_eq!(ways.collect::<BTreeSet<_>>().len(), 9);
    }

    /// All questions about reserved names, asked of a library that is never right.
    fn met(root: Root) -> Met {
        let mut met = Met::none(root);
        for question in reserved::questions(root) {
            met.count(&question, &crate::ask::check(|_| -1, &question));
        }
        met
    }

    #[test]
    fn reserved_names_are_met_everywhere_and_must_be() {
        for root in crate::ROOTS {
            let full = met(root);
            assert!([&full.reserved, &full.declared].map(|counts| missing("", counts)) == [0; 2]);
            // No pair beyond those that are asked for.
            assert!(full.reserved.keys().copied().eq(reserved::using_pairs(root)));
            assert!(full.declared.keys().copied().eq(reserved::declaring_pairs(root)));
            let is_enough = |reserved: &[u64], declared: &[u64]| {
                let counts = |counts: &[u64]| (0..).zip(counts.iter().copied()).map(|(at, n)| ((at, 0), n)).collect();
                let (pairs, settings) = (BTreeMap::new(), BTreeMap::new());
                Met { pairs, settings, reserved: counts(reserved), declared: counts(declared) }.print(false)
            };
            assert!(is_enough(&[1, 1], &[1, 1]));
            assert!(!is_enough(&[1, 0], &[1, 1]) && !is_enough(&[1, 1], &[0, 1]));
        }
    }

    #[test]
    fn texts_without_needed_spaces_are_too_few() {
        assert!(is_spaced(1) && !is_spaced(0));
    }

    #[test]
    fn texts_without_either_mended_keyword_are_too_few() {
        assert!(are_mended([1, 1]));
        assert!([[0, 0], [1, 0], [0, 1]].into_iter().all(|texts| !are_mended(texts)));
    }

    #[test]
    fn signs_that_are_answered_one_way_alone_are_too_few() {
        assert!(is_joined_both_ways([1, 1]));
        assert!([[0, 0], [1, 0], [0, 1]].into_iter().all(|answers| !is_joined_both_ways(answers)));
    }
}
