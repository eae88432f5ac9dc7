//! The stored sample of records' names: small inputs, most of them no tree, each asked for the name at one index.

use super::{first, SMALL};
use crate::answer::Root;
use crate::cases::damage;
use crate::grow;
use crate::name::name;
use crate::random::Random;
use crate::record::SIZE;
use crate::tree::{all, rec};

/// The first record's kind.
const NAMES: u8 = 1;
/// Trees that are asked for each of their names, and damages of each.
const TREES: usize = 24;
const DAMAGES: usize = 4;
/// Bytes of records that such a tree may have.
const MOST_BYTES: usize = 4 * SIZE;
/// Inputs of random bytes.
const RANDOM: usize = 120;

/// A question for a name.
struct Case {
    records: Vec<u8>,
    names: Vec<u8>,
    index: u64,
}

impl Case {
    fn new(records: impl Into<Vec<u8>>, names: impl Into<Vec<u8>>, index: u64) -> Self {
        Self { records: records.into(), names: names.into(), index }
    }

    fn text(&self) -> &[u8] {
        name(&self.records, &self.names, self.index)
    }

    fn to_bytes(&self) -> Vec<u8> {
        let Self { records, names, index } = self;
        let [records_length, names_length, text_length] =
            [records, names, self.text()].map(|bytes: &[u8]| u32::try_from(bytes.len()).expect(SMALL));
        // The low half, and what is left above it.
        let (low, high) = (*index as u32, (*index >> 32) as u32);
        all(&[
            &rec(0, 0, 0, 0, records_length),
            &rec(0, 0, 0, names_length, text_length),
            &rec(0, 0, 0, low, high),
            records,
            names,
            self.text(),
        ])
    }
}

/// The file of a seed.
pub fn file(seed: u64) -> Vec<u8> {
    let cases = cases(seed);
    [first(NAMES, cases.len())].into_iter().chain(cases.iter().map(Case::to_bytes)).collect::<Vec<_>>().concat()
}

fn cases(seed: u64) -> Vec<Case> {
    let mut random = Random::new(seed, 0);
    let cases = trees(seed, &mut random).into_iter().chain(cut()).chain(ends()).chain(indices());
    let cases: Vec<Case> = cases.collect();
    cases.into_iter().chain((0..RANDOM).map(|case| any(case, &mut random))).collect()
}

/// Small grown trees, asked for each of their names and the one behind, and damaged ones, asked somewhere.
fn trees(seed: u64, random: &mut Random) -> Vec<Case> {
    let grown = (0..).map(|case| grow::rooted(Root::Expr, seed, case));
    let small = grown.filter(|tree| !tree.names.is_empty() && tree.records.len() <= MOST_BYTES).take(TREES);
    let mut cases = Vec::new();
    for tree in small {
        let count = tree.records.len() / SIZE;
        cases.extend((0..=count as u64).map(|index| Case::new(tree.records.clone(), tree.names.clone(), index)));
        for _ in 0..DAMAGES {
            let damaged = damage::once(&tree, random);
            cases.push(Case::new(damaged.records, damaged.names, random.between(0, count) as u64));
        }
    }
    cases
}

/// Three records, cut behind each of their bytes: the last that is whole, and the one that is not.
fn cut() -> impl Iterator<Item = Case> {
    let records = all(&[&rec(1, 0, 0, 0, 2), &rec(22, 0, 0, 1, 3), &rec(40, 0, 7, 3, 2)]);
    (0..=records.len()).flat_map(move |length| {
        let whole = (length / SIZE) as u64;
        let records = records[..length].to_vec();
        whole.checked_sub(1).into_iter().chain([whole]).map(move |index| Case::new(records.clone(), b"uvwxyz", index))
    })
}

/// Texts that begin and end within the names, at their end, behind it, and so far beyond that the sum of offset and
/// length has 33 bits.
fn ends() -> impl Iterator<Item = Case> {
    [0, 1, 9].into_iter().flat_map(|length: u32| {
        let names: Vec<u8> = (0..length).map(|at| 0xf0 + at as u8).collect();
        let near = [0, 1, length, length.wrapping_sub(1), length + 1, 1 << 31, u32::MAX];
        near.into_iter().flat_map(move |a| {
            let names = names.clone();
            let left = length.wrapping_sub(a);
            // With the second the sum is as long as the names, but for its 33rd bit; with its neighbours one less and more.
            let lengths = [left.wrapping_sub(1), left, left.wrapping_add(1), a.wrapping_neg(), 0, u32::MAX];
            lengths.into_iter().map(move |b| Case::new(rec(1, 0, 0, a, b), names.clone(), 0))
        })
    })
}

/// Two records, asked at their end and far beyond, also where an index that is cut to 32 bits, or its place in bytes to
/// 64, would be one of them.
fn indices() -> impl Iterator<Item = Case> {
    let records = all(&[&rec(1, 0, 0, 0, 3), &rec(81, 9, 0, 3, 4)]);
    let near = (0..5).chain([11, 12, 13, 255, 256]);
    let far = [1 << 31, 1 << 32, (1 << 32) + 1, (1 << 32) + 2, u64::MAX / 12, u64::MAX / 12 + 1, 1 << 60, 1 << 61];
    let last = [1 << 62, (1 << 62) + 1, (1 << 62) + 2, 1 << 63, (1 << 63) + 1, u64::MAX - 1, u64::MAX];
    near.chain(far).chain(last).map(move |index| Case::new(records.clone(), b"onetwo.", index))
}

/// Records of random bytes, in most of which offset and length are small, and names of random bytes.
fn any(case: usize, random: &mut Random) -> Case {
    let mut bytes = |length: usize| -> Vec<u8> { (0..length).map(|_| random.byte(255)).collect() };
    let (mut records, names) = (bytes(case % 3 * SIZE + case % 5 + SIZE), bytes(case % 17));
    if !case.is_multiple_of(4) {
        for record in records.as_chunks_mut::<SIZE>().0 {
            let [a, b] = [random.byte(12), random.byte(6)];
            record[4..].copy_from_slice(&[a, 0, 0, 0, b, 0, 0, 0]);
        }
    }
    Case::new(records, names, random.between(0, 3) as u64)
}

#[cfg(test)]
mod tests {
    use super::*;
    use crate::cases::{cover, tight};
    use crate::read;
    use crate::record::Record;
    use std::collections::BTreeSet;

    #[test]
    fn the_sample_has_everything() {
        let cases = cases(1);
        assert!((300..=600).contains(&cases.len()), "{}", cases.len());
        let record = |case: &Case| -> Option<Record> {
            let whole = case.records.as_chunks::<SIZE>().0;
            whole.get(usize::try_from(case.index).ok()?).map(Record::from_bytes)
        };
        let count = |is: &dyn Fn(&Case) -> bool| cases.iter().filter(|case| is(case)).count();
        let sum = |case: &Case| record(case).map(|r| u64::from(r.a) + u64::from(r.b));
        assert!(count(&|case| !case.text().is_empty()) >= 100);
        assert!(count(&|case| record(case).is_none()) >= 80);
        assert!(count(&|case| sum(case).is_some_and(|sum| sum > case.names.len() as u64)) >= 100);
        assert!(count(&|case| sum(case).is_some_and(|sum| sum >> 32 == 1)) >= 30);
        assert!(count(&|case| case.index > u64::from(u32::MAX)) >= 10);
        let kinds: BTreeSet<u8> = cases.iter().filter_map(record).map(|record| record.kind).collect();
        assert!(kinds.len() >= 60, "{}", kinds.len());
        let tree = |case: &Case| tight(Root::Expr, case.records.clone(), case.names.clone());
        let good = count(&|case| read::refusal(&tree(case)).is_none() && cover::records(&tree(case)).count() > 0);
        assert!((50..=cases.len() - 50).contains(&good), "{good}");
    }

    /// Sums of offset and length that only their 33rd bit takes beyond the names.
    #[test]
    fn a_sum_of_32_bits_would_be_seen() {
        let wrong = |case: &&Case| {
            let whole = case.records.as_chunks::<SIZE>().0;
            let record = usize::try_from(case.index).ok().and_then(|index| whole.get(index)).map(Record::from_bytes);
            record.is_some_and(|r| r.a.checked_add(r.b).is_none() && r.a.wrapping_add(r.b) as usize <= case.names.len())
        };
        assert!(cases(1).iter().filter(wrong).count() >= 10);
    }

    /// The program that replays it has a larger buffer; the file is to be small.
    #[test]
    fn the_sample_is_small() {
        assert!(file(1).len() <= 1 << 16, "{}", file(1).len());
    }
}
