//! Random trees: all are good, and some thousand of them show everything that document 01's tables have.

use oracle::answer::{answer, Outcome, Question, Root};
use oracle::cases::cover::{pairs, records};
use oracle::cases::{damage, reserved};
use oracle::name::name;
use oracle::random::Random;
use oracle::tables::MISSPELT;
use oracle::words::{judge, Judgement, LONGEST_NAME};
use oracle::{grow, settings};
use std::collections::{BTreeMap, BTreeSet};

const CASES: u64 = 3_000;

fn questions() -> impl Iterator<Item = Question> {
    (0..CASES).map(|case| grow::question(1, case))
}

#[test]
fn every_tree_is_answered() {
    for seed in 1..=3 {
        for case in 0..CASES {
            let text = answer(&grow::question(seed, case)).text;
            assert!(matches!(text, Outcome::Given(_)), "seed {seed}, case {case}: {text:?}");
        }
    }
}

#[test]
fn every_kind_and_variant_comes_up() {
    let seen: BTreeSet<(u8, u8)> =
        questions().flat_map(|q| records(&q).map(|r| (r.kind, r.variant)).collect::<Vec<_>>()).collect();
    let missing: Vec<_> = pairs(Root::Unit).filter(|pair| !seen.contains(pair)).collect();
    assert_eq!(missing, []);
}

#[test]
fn every_settings_value_comes_up() {
    let seen: BTreeSet<(usize, u8)> = questions().flat_map(|q| q.settings.into_iter().enumerate()).collect();
    assert_eq!(seen, settings::values().collect());
    for constant in [&settings::TIGHT[..], &settings::OPEN, &settings::EXPORT] {
        assert!(questions().any(|q| q.settings == constant));
    }
}

#[test]
fn sizes_go_from_1_to_about_60() {
    for root in [Root::Unit, Root::Expr] {
        let sizes: Vec<usize> = questions().filter(|q| q.root == root).map(|q| records(&q).count()).collect();
        assert_eq!(sizes.iter().min(), Some(&1));
        assert!(sizes.iter().max().is_some_and(|most| (50..=90).contains(most)), "{root:?}");
    }
}

#[test]
fn names_have_every_sort_of_length_and_are_shared() {
    let variables: Vec<Vec<(u32, u32)>> =
        questions().map(|q| records(&q).filter(|r| r.kind == 1).map(|r| (r.a, r.b)).collect()).collect();
    let lengths: BTreeSet<u32> = variables.iter().flatten().map(|&(_, length)| length).collect();
    assert!(lengths.len() > 40 && lengths.contains(&1) && lengths.contains(&255));
    assert!(variables.iter().any(|places| places.iter().collect::<BTreeSet<_>>().len() < places.len()));
}

#[test]
fn joined_is_answered_both_ways() {
    let joined = questions().filter(|q| answer(q).joined == Some(Outcome::Given(true))).count();
    let not = questions().filter(|q| answer(q).joined == Some(Outcome::Given(false))).count();
    assert!(joined > 50 && not > 500, "{joined} joined, {not} not");
}

#[test]
fn needed_spaces_are_printed() {
    for root in [Root::Expr, Root::Unit] {
        let spaced = questions().filter(|q| q.root == root && answer(q).needed > 0).count();
        assert!(spaced > 5, "{root:?}: {spaced}");
    }
}

/// The Rust module misspells two keywords (02, #102): both come up, and so do names that are spelt as it spells them.
#[test]
fn misspelt_keywords_come_up_and_names_like_them() {
    let is_named = |q: &Question, text: &str| {
        (0..records(q).count() as u64).any(|index| name(&q.records, &q.names, index) == text.as_bytes())
    };
    for (at, (keyword, misspelt)) in MISSPELT.into_iter().enumerate() {
        let mended = questions().filter(|q| answer(q).mended[at] > 0).count();
        let named = questions().filter(|q| is_named(q, misspelt)).count();
        assert!(mended > 10 && named > 10, "{keyword}: {mended}, {misspelt}: {named}");
    }
}

/// Reserved names (02, #105) come up wherever they may stand, short ones and the longest. (That no tree declares one is said by all
/// trees being answered.) Names that are nearly reserved come up too.
#[test]
fn reserved_names_come_up_and_names_like_them() {
    for root in [Root::Expr, Root::Unit] {
        let mut counts: BTreeMap<(u8, u8), u64> = BTreeMap::new();
        // Many, since few expressions have layout ids: only a struct that is called holds them.
        for question in (0..20 * CASES).map(|case| grow::rooted(root, 1, case)) {
            for pair in reserved::pairs_in(&question) {
                *counts.entry(pair).or_default() += 1;
            }
        }
        assert!(counts.keys().copied().eq(reserved::using_pairs(root)), "{root:?}: {counts:?}");
        assert!(counts.values().all(|&count| count >= 5), "{root:?}: {counts:?}");
    }
    let named = |q: &Question| -> BTreeSet<Vec<u8>> {
        (0..records(q).count() as u64).map(|index| name(&q.records, &q.names, index).to_vec()).collect()
    };
    let names: BTreeSet<Vec<u8>> = questions().flat_map(|q| named(&q)).collect();
    let expected = grow::RESERVED_NAMES.iter().chain(&grow::NEARLY_RESERVED);
    assert!(expected.into_iter().all(|name| names.contains(name.as_bytes())));
    assert!(names.iter().any(|name| judge(name) == Judgement::Reserved && name.len() == LONGEST_NAME));
}

#[test]
fn damaged_trees_are_refused_or_answered() {
    let mut random = Random::new(1, CASES);
    let mut refusals = BTreeSet::new();
    for question in questions().chain(questions()) {
        if let Outcome::Refused(refusal) = answer(&damage::once(&question, &mut random)).text {
            refusals.insert(refusal.number());
        }
    }
    // 1 and 3 need other settings and long names, 6 a deep tree.
    assert_eq!(refusals, BTreeSet::from([2, 4, 5, 7, 8, 9, 10, 11, 12, 15]));
}
