//! Damaged copies of a question: one damage in every place, or several at random.

use crate::answer::{Question, Root};
use crate::grow::RESERVED_NAMES;
use crate::random::Random;
use crate::record::{shape, Payload, Record, SIZE};
use crate::words;

/// Bytes that are worth trying wherever all 256 are too many: small numbers, the ends of the kinds' ranges and of the
/// variants' ranges, bits, and what texts are made of.
pub const BYTES: [u8; 41] = [
    0, 1, 2, 3, 4, 5, 6, 7, 8, 10, 11, 12, 16, 17, 18, 19, 20, 21, 22, 24, 26, 27, 28, 29, 31, 40, 45, b'.', b'0', 47,
    60, 61, 68, b'A', 80, b'_', b'a', 118, 119, 128, 255,
];

/// Numbers for a, b and the count: small ones, powers of two, the limits' neighbours and the last of all.
const NUMBERS: [u32; 22] = [
    0,
    1,
    2,
    3,
    4,
    254,
    255,
    256,
    257,
    399,
    400,
    401,
    4_095,
    32_767,
    32_768,
    32_769,
    65_535,
    65_536,
    1 << 31,
    u32::MAX - 1,
    u32::MAX,
    1 << 24,
];

/// The same tree asked for by the other call.
pub fn other_root(base: &Question) -> Question {
    let root = match base.root {
        Root::Unit => Root::Expr,
        Root::Expr => Root::Unit,
    };
    Question { root, ..base.clone() }
}

/// Each byte of the records becomes each of the values.
pub fn record_bytes<'a>(base: &'a Question, values: &'a [u8]) -> impl Iterator<Item = Question> + 'a {
    replaced(&base.records, values).map(|records| Question { records, ..base.clone() })
}

/// Each byte of the names becomes each of the values.
pub fn name_bytes<'a>(base: &'a Question, values: &'a [u8]) -> impl Iterator<Item = Question> + 'a {
    replaced(&base.names, values).map(|names| Question { names, ..base.clone() })
}

/// Each byte becomes each of the values that it has not.
fn replaced<'a>(bytes: &'a [u8], values: &'a [u8]) -> impl Iterator<Item = Vec<u8>> + 'a {
    bytes.iter().enumerate().flat_map(move |(at, &old)| {
        values.iter().filter(move |&&value| value != old).map(move |&value| {
            let mut bytes = bytes.to_vec();
            bytes[at] = value;
            bytes
        })
    })
}

/// Records and names cut behind each of their bytes, and with one byte more.
pub fn cuts(base: &Question) -> impl Iterator<Item = Question> + '_ {
    let records = lengths(&base.records).map(|records| Question { records, ..base.clone() });
    records.chain(lengths(&base.names).map(|names| Question { names, ..base.clone() }))
}

fn lengths(bytes: &[u8]) -> impl Iterator<Item = Vec<u8>> + '_ {
    (0..bytes.len()).map(|length| bytes[..length].to_vec()).chain([[bytes, &[0]].concat()])
}

/// Each record removed; each record put in front of each, and at the end; each two records swapped.
pub fn moves(base: &Question) -> impl Iterator<Item = Question> + '_ {
    let records = base.records.as_chunks::<SIZE>().0;
    let count = records.len();
    let removed = (0..count).map(move |at| [&records[..at], &records[at + 1..]].concat());
    let put = (0..count).flat_map(move |from| {
        (0..=count).map(move |to| [&records[..to], &records[from..=from], &records[to..]].concat())
    });
    let swapped = (0..count).flat_map(move |first| {
        (first + 1..count).map(move |second| {
            let mut records = records.to_vec();
            records.swap(first, second);
            records
        })
    });
    removed.chain(put).chain(swapped).map(|records| Question { records: records.concat(), ..base.clone() })
}

/// The count, a and b of each record become each of [`NUMBERS`], neighbours of what they were, and ends of the names.
pub fn fields(base: &Question) -> impl Iterator<Item = Question> + '_ {
    let records = base.records.as_chunks::<SIZE>().0;
    // Names beyond 32 bits do not occur.
    let end = u32::try_from(base.names.len()).unwrap_or(u32::MAX);
    records.iter().enumerate().flat_map(move |(at, bytes)| {
        let record = Record::from_bytes(bytes);
        let left = end.saturating_sub(record.a);
        let near = |old: u32| [old.wrapping_add(1), old.wrapping_sub(1)];
        let numbers = move |old, ends: [u32; 4]| NUMBERS.into_iter().chain(near(old)).chain(ends);
        let around = |x: u32| [x.wrapping_sub(1), x, x.wrapping_add(1), x.wrapping_neg()];
        let a = numbers(record.a, around(end)).map(move |a| Record { a, ..record });
        let b = numbers(record.b, around(left)).map(move |b| Record { b, ..record });
        // The low half of a number is a number of 16 bits.
        let count = numbers(record.count.into(), [9; 4]).map(move |count| Record { count: count as u16, ..record });
        a.chain(b).chain(count).filter(move |new| *new != record).map(move |new| with_record(base, at, new))
    })
}

/// The settings cut behind each of their bytes, with one byte more, and with each byte as each value up to some beyond
/// the greatest.
pub fn settings(base: &Question) -> impl Iterator<Item = Question> + '_ {
    let values = (0..=18).chain([255]);
    let bytes = (0..base.settings.len()).flat_map(move |at| {
        values.clone().map(move |value| {
            let mut settings = base.settings.clone();
            settings[at] = value;
            settings
        })
    });
    lengths(&base.settings).chain(bytes).map(|settings| Question { settings, ..base.clone() })
}

/// Each text of the tree becomes each of the texts, which is put behind the names.
pub fn texts<'a>(base: &'a Question, texts: &'a [Vec<u8>]) -> impl Iterator<Item = Question> + 'a {
    let records = base.records.as_chunks::<SIZE>().0.iter().map(Record::from_bytes).enumerate();
    let with_texts = records.filter(|(_, record)| has_text(record));
    with_texts.flat_map(move |(at, _)| texts.iter().filter_map(move |text| with_text(base, at, text)))
}

/// The question with this text for the record in this place, put behind the names. (Nothing where it would lie beyond 32 bits.)
fn with_text(base: &Question, at: usize, text: &[u8]) -> Option<Question> {
    let (a, b) = (u32::try_from(base.names.len()).ok()?, u32::try_from(text.len()).ok()?);
    let record = Record::from_bytes(base.records.as_chunks::<SIZE>().0.get(at)?);
    let mut question = with_record(base, at, Record { a, b, ..record });
    question.names.extend(text);
    Some(question)
}

/// Whether the record has a text.
fn has_text(record: &Record) -> bool {
    matches!(shape(record.kind, record.variant), Some((_, Payload::Name | Payload::Float)))
}

/// The question with another record in this place.
fn with_record(base: &Question, at: usize, record: Record) -> Question {
    let mut question = base.clone();
    question.records[SIZE * at..SIZE * (at + 1)].copy_from_slice(&record.to_bytes());
    question
}

/// One damage of any sort, somewhere. (An input without records stays as it is.)
pub fn once(base: &Question, random: &mut Random) -> Question {
    let mut question = base.clone();
    let Some(last) = (question.records.len() / SIZE).checked_sub(1) else {
        return question;
    };
    let start = SIZE * random.between(0, last);
    let end = start + SIZE;
    let Question { records, names, .. } = &mut question;
    match random.byte(12) {
        0 => records[start] = random.byte(81),
        1 => records[start] = random.byte(255),
        2 => records[start + 1] = random.byte(119),
        3 => records[start + 2] = random.byte(3),
        4 => records[random.between(start, end - 1)] = random.byte(255),
        5 => records[start + 4 + 4 * random.between(0, 1)] = random.byte(60),
        6 => drop(records.drain(start..end)),
        7 => records.extend_from_within(start..end),
        8 => records.truncate(end),
        9 => {
            let other = SIZE * random.between(0, last);
            for at in 0..SIZE {
                records.swap(start + at, other + at);
            }
        }
        10 => names.truncate(random.between(0, names.len())),
        11 => damage_text(names, random),
        // A reserved name, whatever the record holds: another name, a number or nothing.
        _ => return with_text(base, start / SIZE, random.one_of(&RESERVED_NAMES).as_bytes()).unwrap_or(question),
    }
    question
}

/// Another byte somewhere in the names, or a fixed word.
fn damage_text(names: &mut [u8], random: &mut Random) {
    let Some(last) = names.len().checked_sub(1) else {
        return;
    };
    let at = random.between(0, last);
    if random.chance(50) {
        names[at] = random.one_of(&BYTES);
    } else {
        let word = random.one_of(&words::OTHER_WORDS).as_bytes();
        for (byte, letter) in names[at..].iter_mut().zip(word) {
            *byte = *letter;
        }
    }
}

/// So many damages, one upon the other.
pub fn several(base: &Question, times: usize, random: &mut Random) -> Question {
    (0..times).fold(base.clone(), |question, _| once(&question, random))
}

#[cfg(test)]
mod tests {
    use super::*;
    use crate::cases::tight;
    use crate::read;
    use crate::tree::{all, plain, rec, var};

    /// `a - b`
    fn base() -> Question {
        tight(Root::Expr, all(&[&plain(8, 15), &var(0), &var(1)]), "ab")
    }

    /// The refusals' numbers of some questions, 0 for none, each once.
    fn numbers(questions: impl Iterator<Item = Question>) -> Vec<u8> {
        let refusal = |q: Question| read::expr(&q.records, &q.names).map_or_else(|refusal| refusal.number(), |_| 0);
        let mut numbers: Vec<u8> = questions.map(refusal).collect();
        numbers.sort_unstable();
        numbers.dedup();
        numbers
    }

    #[test]
    fn every_byte_becomes_every_other_value() {
        let all: Vec<u8> = (0..=255).collect();
        assert_eq!(record_bytes(&base(), &all).count(), 36 * 255);
        assert_eq!(name_bytes(&base(), &all).count(), 2 * 255);
        assert!(record_bytes(&base(), &all).all(|question| question != base()));
        assert_eq!(numbers(record_bytes(&base(), &all)), [0, 4, 5, 7, 9, 10, 11]);
        assert_eq!(numbers(name_bytes(&base(), &all)), [0, 11]);
    }

    #[test]
    fn cuts_leave_every_length() {
        let lengths: Vec<usize> = cuts(&base()).map(|q| q.records.len() + q.names.len()).collect();
        let expected: Vec<usize> = (2..38).chain([39]).chain(36..38).chain([39]).collect();
        assert_eq!(lengths, expected);
        assert_eq!(numbers(cuts(&base())), [0, 2, 4, 10]);
    }

    #[test]
    fn records_move_everywhere() {
        let sizes: Vec<usize> = moves(&base()).map(|q| q.records.len() / SIZE).collect();
        assert_eq!(sizes, [[2; 3].as_slice(), &[4; 12], &[3; 3]].concat());
        assert_eq!(numbers(moves(&base())), [0, 4, 12]);
    }

    #[test]
    fn fields_reach_their_ends() {
        let questions: Vec<Question> = fields(&base()).collect();
        assert!(questions.iter().all(|question| *question != base()));
        for expected in [rec(1, 0, 0, u32::MAX, 1), rec(1, 0, 0, 0, u32::MAX), rec(1, 0, 65_535, 0, 1)] {
            assert!(questions.iter().any(|question| question.records[SIZE..2 * SIZE] == expected));
        }
        assert_eq!(numbers(questions.into_iter()), [0, 9, 10, 11]);
    }

    #[test]
    fn settings_are_refused_or_read() {
        let damaged: Vec<Question> = settings(&base()).collect();
        let good = damaged.iter().filter(|question| crate::settings::read(&question.settings).is_ok());
        // Each value of each of 21 bytes, and a byte 21 behind them, which is 0.
        let values = crate::settings::values().filter(|&(at, _)| at < crate::settings::SIZE).count();
        assert_eq!((good.count(), damaged.len()), (values + 1, 22 + 21 * 20));
    }

    #[test]
    fn texts_take_the_place_of_texts() {
        let words = [b"if".to_vec(), b"x".to_vec()];
        let texts: Vec<Vec<u8>> = texts(&base(), &words).map(|question| question.names).collect();
        assert_eq!(texts, [b"abif".as_slice(), b"abx", b"abif", b"abx"]);
    }

    #[test]
    fn several_damages_repeat_by_seed() {
        let (mut first, mut second) = (Random::new(1, 1), Random::new(1, 1));
        for times in 0..50 {
            assert_eq!(several(&base(), times, &mut first), several(&base(), times, &mut second));
        }
    }

    #[test]
    fn other_root_is_the_other_way_round() {
        assert_eq!(other_root(&base()).root, Root::Unit);
        assert_eq!(other_root(&other_root(&base())), base());
    }
}
