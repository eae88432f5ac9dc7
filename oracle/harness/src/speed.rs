//! Times: the libraries' calls, and beside them the Rust module's print of the same trees, built before. And how much stack
//! they take on the deepest trees. Another build's calls can be had beside them, in the same run.
//!
//! A time is the least of many runs, since what else the machine does can only add to it. Every tree has its turn before
//! one comes again: a processor that sees one tree alone soon knows its branches by heart.

use crate::library::{self, Loaded};
use crate::{stack, ROOTS};
use glsl_lang::transpiler::glsl::FormattingSettings;
use oracle::answer::{Question, Root};
use oracle::cases::{large, limits, tight};
use oracle::random::Random;
use oracle::read::Tree;
use oracle::record::SIZE;
use oracle::refusal::Refusal;
use oracle::tree::{many, var};
use oracle::{grow, print, read, settings, words};
use std::hint::black_box;
use std::time::{Duration, Instant};

const RUNS: usize = 200;
/// Trees of a sort that is random.
const TREES: u64 = 8;
/// About as many records as a tree can have.
const RECORDS: usize = 4_000;
/// Names to choose from.
const NAMES: usize = 256;
/// Room for every text here.
const ROOM: usize = 1 << 20;

/// A question in TIGHT, in EXPORT and in OPEN, and its tree.
struct Sample {
    tight: Question,
    export: Question,
    open: Question,
    tree: Tree,
}

impl Sample {
    fn new(tight: Question) -> Result<Self, Refusal> {
        let tree = read::tree(&tight)?;
        let with = |settings: &[u8]| Question { settings: settings.to_vec(), ..tight.clone() };
        let (export, open) = (with(&settings::EXPORT), with(&settings::OPEN));
        Ok(Self { tight, export, open, tree })
    }

    fn records(&self) -> usize {
        self.tight.records.len() / SIZE
    }

    /// The length of the Rust module's text.
    fn rust_print(&self, settings: &FormattingSettings) -> i64 {
        // Texts are short.
        black_box(print::tree(&self.tree, settings)).len() as i64
    }
}

/// A call on a sample, with a room; the number keeps it from being left out.
type Run = dyn Fn(&Sample, &mut [u8]) -> i64;

/// A call that is measured.
struct Call {
    name: &'static str,
    run: Box<Run>,
}

impl Call {
    fn new(name: &'static str, run: impl Fn(&Sample, &mut [u8]) -> i64 + 'static) -> Self {
        Self { name, run: Box::new(run) }
    }
}

/// The record check first, if there is one; the print and the joined question, if there are; these of another build, if
/// there is one; and the Rust module's print. Another build and the Rust module know nothing of needed spaces.
fn calls(root: Root, before: Option<Loaded>) -> Result<Vec<Call>, Refusal> {
    let mut calls = Vec::new();
    if let Some(check) = library::CHECK {
        calls.push(Call::new("check", move |sample, _| check(&sample.tight)));
    }
    if let Some(linked) = library::CALLS {
        let print = linked.print(root);
        calls.push(Call::new("print TIGHT", move |sample, room| print(&sample.tight, room)));
        calls.push(Call::new("print EXPORT", move |sample, room| print(&sample.export, room)));
        calls.push(Call::new("print OPEN", move |sample, room| print(&sample.open, room)));
        if root == Root::Expr {
            calls.push(Call::new("joined", move |sample, _| (linked.joined)(&sample.tight)));
        }
    }
    if let Some(before) = before {
        calls.push(Call::new("before TIGHT", move |sample, room| before.print(root, &sample.tight, room)));
        calls.push(Call::new("before OPEN", move |sample, room| before.print(root, &sample.open, room)));
        if root == Root::Expr {
            calls.push(Call::new("before joined", move |sample, _| before.joined(&sample.tight)));
        }
    }
    for (name, bytes) in [("Rust TIGHT", settings::TIGHT), ("Rust OPEN", settings::OPEN)] {
        let settings = settings::read(&bytes)?.module;
        calls.push(Call::new(name, move |sample, _| sample.rust_print(&settings)));
    }
    Ok(calls)
}

/// Samples of one sort.
struct Sort {
    name: String,
    samples: Vec<Sample>,
}

impl Sort {
    fn new(name: impl Into<String>, questions: impl IntoIterator<Item = Question>) -> Result<Self, Refusal> {
        Ok(Self { name: name.into(), samples: questions.into_iter().map(Sample::new).collect::<Result<_, _>>()? })
    }

    fn records(&self) -> usize {
        self.samples.iter().map(Sample::records).sum()
    }
}

/// The least times of each sort, in nanoseconds a record, by call.
fn least(calls: &[Call], sorts: &[Sort]) -> Vec<Vec<f64>> {
    let mut room = vec![0; ROOM];
    let none: Vec<Vec<Duration>> = sorts.iter().map(|sort| vec![Duration::MAX; sort.samples.len()]).collect();
    let mut least = vec![none; calls.len()];
    for _ in 0..RUNS {
        for (call, least) in calls.iter().zip(&mut least) {
            for (sample, least) in sorts.iter().flat_map(|sort| &sort.samples).zip(least.iter_mut().flatten()) {
                let start = Instant::now();
                let answer = black_box((call.run)(sample, &mut room));
                *least = start.elapsed().min(*least);
                // A refusal would only look fast.
                assert!(answer >= 0, "{} refuses a good tree: {answer}", call.name);
            }
        }
    }
    let each = |sort: usize| {
        let sum = |times: &Vec<Vec<Duration>>| times[sort].iter().sum::<Duration>().as_nanos() as f64;
        least.iter().map(|times| sum(times) / sorts[sort].records() as f64).collect()
    };
    (0..sorts.len()).map(each).collect()
}

/// Prints the tables, with the calls of another build if there is one.
pub fn run(seed: u64, before: Option<Loaded>) -> Result<(), Refusal> {
    for root in ROOTS {
        let calls = calls(root, before)?;
        table(&format!("{root:?}"), &calls, &sorts(root, seed)?);
        println!("{:<20}{}\n", "bytes of stack", stacks(root, &calls)?);
    }
    table("Numbers", &calls(Root::Expr, before)?, &numbers(seed)?);
    println!();
    names(seed, before)
}

/// Prints a table of times.
fn table(name: &str, calls: &[Call], sorts: &[Sort]) {
    let heading: String = calls.iter().map(|call| format!("{:>14}", call.name)).collect();
    println!("{:<20}{heading}", format!("{name}, ns a record"));
    for (sort, times) in sorts.iter().zip(least(calls, sorts)) {
        println!("{:<20}{}", sort.name, times.iter().map(|time| format!("{time:>14.1}")).collect::<String>());
    }
}

/// The trees on which times are taken.
fn sorts(root: Root, seed: u64) -> Result<Vec<Sort>, Refusal> {
    let seeds = seed..seed + TREES;
    let least = match root {
        Root::Unit => many(80, 0),
        Root::Expr => var(0),
    };
    let grown = seeds.clone().map(|seed| with_first_keywords(large::grown(root, seed, RECORDS)));
    let mut sorts = vec![
        Sort::new("grown", grown)?,
        Sort::new("like a shader's", seeds.clone().map(|seed| large::shader(root, seed, RECORDS)))?,
        Sort::new("the least", [tight(root, least, "x")])?,
    ];
    if root == Root::Expr {
        sorts.push(Sort::new("binary, depth 200", seeds.clone().map(|seed| large::nested(seed, RECORDS)))?);
        let names = large::shader_names();
        sorts.push(Sort::new("many arguments", seeds.flat_map(|seed| large::atoms(seed, &names)))?);
    }
    Ok(sorts)
}

/// The tree with type keywords of document 01 alone: another build may not know those of request #102.
fn with_first_keywords(mut tree: Question) -> Question {
    for [kind, variant, ..] in tree.records.as_chunks_mut::<SIZE>().0 {
        if *kind == 21 {
            // They are few.
            *variant %= words::FIRST_KEYWORDS as u8;
        }
    }
    tree
}

/// Calls with whole numbers alone: of each length of 1 to 10 digits, of all these lengths, the same below 0 and unsigned, and
/// a shader's.
fn numbers(seed: u64) -> Result<Vec<Sort>, Refusal> {
    use large::{Number, MOST_DIGITS};
    let seeds = seed..seed + TREES;
    let sort = |name: &str, number, least, most| {
        Sort::new(name, seeds.clone().map(|seed| large::numbers(seed, number, least, most)))
    };
    let each = (1..=MOST_DIGITS).map(|digits| sort(&format!("digits {digits}"), Number::Int, digits, digits));
    let mut sorts = each.collect::<Result<Vec<_>, _>>()?;
    let mixed = [("digits 1 to 10", Number::Int), ("negative", Number::Negative), ("unsigned", Number::UInt)];
    for (name, number) in mixed {
        sorts.push(sort(name, number, 1, MOST_DIGITS)?);
    }
    sorts.push(Sort::new("a shader's", seeds.map(large::shader_numbers))?);
    Ok(sorts)
}

/// The most bytes of stack that each call takes on the deepest trees.
fn stacks(root: Root, calls: &[Call]) -> Result<String, Refusal> {
    let deepest = Sort::new("deepest", limits::deepest().filter(|question| question.root == root))?;
    let need = |call: &Call, sample: &Sample| {
        stack::need(&|| {
            // A room of its own, from the heap.
            black_box((call.run)(sample, &mut vec![0; ROOM]));
        })
    };
    let most = calls.iter().map(|call| deepest.samples.iter().map(|sample| need(call, sample)).max().unwrap_or(0));
    Ok(most.map(|bytes| format!("{bytes:>14}")).collect())
}

/// The calls that write no text. The joined question checks the records too, and it is all that another build has of these.
const WITHOUT_TEXT: [&str; 3] = ["check", "joined", "before joined"];

/// Prints what a name costs in the record check and in the joined question, also of another build if there is one.
fn names(seed: u64, before: Option<Loaded>) -> Result<(), Refusal> {
    let mut calls = calls(Root::Expr, before)?;
    calls.retain(|call| WITHOUT_TEXT.contains(&call.name));
    if calls.is_empty() {
        return Ok(());
    }
    let [_, bools] = large::atoms(seed, &[b"x".to_vec()]);
    let mut sorts = vec![Sort::new("a bool", [bools])?];
    for (name, texts) in names_by_sort(seed) {
        let [variables, _] = large::atoms(seed, &texts);
        sorts.push(Sort::new(name, [variables])?);
    }
    let least = least(&calls, &sorts);
    println!("ns a name, beyond a bool in its place");
    println!("{:<20}{}", "", calls.iter().map(|call| format!("{:>14}", call.name)).collect::<String>());
    for (sort, times) in sorts.iter().zip(&least).skip(1) {
        let records = sort.records() as f64 / f64::from(large::ATOMS);
        let beyond = times.iter().zip(&least[0]).map(|(time, bool)| format!("{:>14.1}", (time - bool) * records));
        println!("{:<20}{}", sort.name, beyond.collect::<String>());
    }
    Ok(())
}

/// Names of each length of 1 to 12, of all these lengths, longer ones, a shader's, names that nearly are fixed words, names like
/// those of opaque types, reserved names and names that nearly are. What is a name now was one before request #102 too, and
/// variables may have reserved names, so another build takes all of them.
fn names_by_sort(seed: u64) -> Vec<(String, Vec<Vec<u8>>)> {
    let mut random = Random::new(seed, 0);
    let mut of_length = |least, most| (0..NAMES).map(|_| name(&mut random, least, most)).collect();
    let mut names: Vec<_> = (1..=12).map(|length| (format!("length {length}"), of_length(length, length))).collect();
    names.push(("lengths 1 to 12".to_owned(), of_length(1, 12)));
    names.push(("13 to 40".to_owned(), of_length(13, 40)));
    names.push(("a shader's".to_owned(), large::shader_names()));
    let are_names = |words: Vec<Vec<u8>>| words.into_iter().filter(|word| words::is_name(word));
    // Every second one: all are longer than the names of a tree can be.
    names.push(("near words".to_owned(), are_names(limits::near_words()).step_by(2).collect()));
    names.push(("near the first 94".to_owned(), are_names(limits::near_first_words()).collect()));
    let listed: [(&str, &[&str]); 3] = [
        ("like opaque types", &limits::LIKE_OPAQUE_TYPES),
        ("reserved", &grow::RESERVED_NAMES),
        ("nearly reserved", &grow::NEARLY_RESERVED),
    ];
    names.extend(
        listed.map(|(sort, words)| (sort.to_owned(), words.iter().map(|word| word.as_bytes().to_vec()).collect())),
    );
    names
}

/// A name of small letters.
fn name(random: &mut Random, least: usize, most: usize) -> Vec<u8> {
    loop {
        let length = random.between(least, most);
        let text: Vec<u8> = (0..length).map(|_| b'a' + random.byte(25)).collect();
        if words::is_name(&text) {
            return text;
        }
    }
}

#[cfg(test)]
mod tests {
    use super::*;
    use oracle::cases::cover;

    /// Each sort is as many names as a tree can hold, and none is a word.
    #[test]
    fn names_are_good() {
        for (sort, texts) in names_by_sort(1) {
            let [variables, _] = large::atoms(1, &texts);
            assert_eq!(read::refusal(&variables), None, "{sort}");
        }
    }

    #[test]
    fn grown_trees_have_first_keywords_alone() {
        for root in ROOTS {
            for sample in sorts(root, 1).expect("good trees").iter().flat_map(|sort| &sort.samples) {
                let mut keywords = cover::records(&sample.tight).filter(|record| record.kind == 21);
                assert!(keywords.all(|record| usize::from(record.variant) < words::FIRST_KEYWORDS));
            }
        }
    }
}
