//! Expressions in which signs meet, or nearly do: operators over operands of every kind, which begin with a sign or not, in
//! every sort of place, of units too. They are about the joined question (01, "Calls"; 02, #103) and needed spaces (02, #106).

use super::tight;
use crate::answer::{Question, Root};
use crate::tree::{all, function, int, keyword, many, named, plain, rec, var};

/// The names `a`, `b`, `f`, and behind them the float texts `1` and `1.5`.
const NAMES: &str = "abf1.5";

/// A tree that lacks an expression: the records in front of it, and those behind.
#[derive(Clone)]
struct Frame {
    front: Vec<u8>,
    behind: Vec<u8>,
}

impl Frame {
    fn new(front: &[&[u8]], behind: &[&[u8]]) -> Self {
        Self { front: all(front), behind: all(behind) }
    }

    /// The whole tree.
    fn around(&self, expr: &[u8]) -> Vec<u8> {
        all(&[&self.front, expr, &self.behind])
    }
}

/// Nothing around the expression.
const ALONE: Frame = Frame { front: Vec::new(), behind: Vec::new() };

/// All questions about expressions. Operators stand over everything, in each place; over what the first operand of a
/// first operand begins with; and what can be joined is an operand of everything.
pub fn questions() -> impl Iterator<Item = Question> {
    let placed = over(places().into_iter().chain([ALONE]).collect(), over(operators(), operands().into_iter()));
    let nested = over(operators(), twice_framed());
    let deep = over(signs(), three_times_first());
    let within = over(frames(), nearly_joined());
    placed.chain(nested).chain(deep).chain(within).map(|records| tight(Root::Expr, records, NAMES))
}

/// Questions about units: what is joined or nearly so stands in each of their places.
pub fn in_units() -> impl Iterator<Item = Question> {
    over(unit_places(), nearly_joined()).map(|records| tight(Root::Unit, records, NAMES))
}

/// Each expression in each of the frames.
fn over(frames: Vec<Frame>, exprs: impl Iterator<Item = Vec<u8>>) -> impl Iterator<Item = Vec<u8>> {
    exprs.flat_map(move |expr| frames.iter().map(|frame| frame.around(&expr)).collect::<Vec<_>>())
}

/// `||`, `<<`, plus, minus and `*`: of the weakest strength and of those around plus and minus.
const BINARY: [u8; 5] = [0, 12, 14, 15, 16];
/// A binary operator of each strength, the weakest first, and both plus and minus.
const EACH_STRENGTH: [u8; 12] = [0, 1, 2, 3, 4, 5, 6, 8, 12, 14, 15, 16];
/// `=` and `-=`.
const ASSIGNMENT: [u8; 2] = [0, 5];

/// Unary operators.
fn unary(ops: impl IntoIterator<Item = u8>) -> impl Iterator<Item = Frame> {
    ops.into_iter().map(|op| Frame::new(&[&plain(7, op)], &[]))
}

/// Binary operators with the expression on their right.
fn binary(ops: impl IntoIterator<Item = u8>) -> impl Iterator<Item = Frame> {
    ops.into_iter().map(|op| Frame::new(&[&plain(8, op), &var(0)], &[]))
}

/// The operators that join, their neighbours, and none.
fn operators() -> Vec<Frame> {
    unary(0..=5).chain(binary(BINARY)).chain([dot(), ALONE]).collect()
}

fn dot() -> Frame {
    Frame::new(&[&named(13, 0, 1)], &[])
}

/// Plus and minus, unary and binary.
fn signs() -> Vec<Frame> {
    unary([2, 3]).chain(binary([14, 15])).collect()
}

/// Names and constants, and each of them in each frame.
fn operands() -> Vec<Vec<u8>> {
    atoms().into_iter().chain(over(frames(), atoms().into_iter())).collect()
}

/// Expressions in any frame and then at the front of another, or under a unary operator. The innermost begin with a sign or
/// with none; an int is among them, for Dot.
fn twice_framed() -> impl Iterator<Item = Vec<u8>> {
    let innermost = [var(0), int(u32::MAX)].into_iter().chain(signed());
    over(unary(0..=5).chain(firsts()).collect(), over(frames(), innermost))
}

/// Expressions that begin with a sign, at the front of a frame, of a callee, which is bare at any strength, and of another
/// frame.
fn three_times_first() -> impl Iterator<Item = Vec<u8>> {
    let innermost = signed().into_iter().chain([int(i32::MIN.cast_unsigned())]);
    let callees = firsts_of(&EACH_STRENGTH).map(|frame| Frame { front: all(&[&many(12, 0), &frame.front]), ..frame });
    over(firsts().collect(), over(callees.collect(), over(firsts().collect(), innermost)))
}

/// The operators that join over what they join with, and over what they do not.
fn nearly_joined() -> impl Iterator<Item = Vec<u8>> {
    over(signs().into_iter().chain([dot()]).collect(), atoms().into_iter().chain(signed()))
}

/// `-a` and `++a`.
fn signed() -> [Vec<u8>; 2] {
    [plain(7, 3), plain(7, 0)].map(|op| all(&[&op, &var(0)]))
}

/// Kinds 1 to 6: a name; whole numbers below 0, 0, above it and at their limits; the other constants.
fn atoms() -> Vec<Vec<u8>> {
    let ints = [0, 1, i32::MAX.cast_unsigned(), i32::MIN.cast_unsigned(), u32::MAX].map(int);
    let uints = [0, 1, u32::MAX].map(|bits| rec(3, 0, 0, bits, 0));
    let floats = [5, 6].into_iter().flat_map(|kind| [1, 3].map(|length| rec(kind, 0, 0, 3, length)));
    let others = [var(0), plain(4, 0), plain(4, 1)];
    others.into_iter().chain(ints).chain(uints).chain(floats).collect()
}

/// Kinds 7 to 16 with the expression as each of their operands, and in each place of a callee's type.
fn frames() -> Vec<Frame> {
    let (a, b) = (var(0), var(1));
    let seconds = pairs(&BINARY).map(|pair| Frame::new(&[&pair, &a], &[]));
    let choices = [Frame::new(&[&plain(9, 0), &a], &[&b]), Frame::new(&[&plain(9, 0), &a, &b], &[])];
    unary(0..=5).chain(firsts()).chain(seconds).chain(choices).chain(places()).collect()
}

/// Frames whose text begins with the expression's, unless it is bracketed: it is the first operand, or the callee.
fn firsts() -> impl Iterator<Item = Frame> {
    firsts_of(&BINARY)
}

/// The same with these binary operators.
fn firsts_of(binary: &[u8]) -> impl Iterator<Item = Frame> + '_ {
    let posts = [14, 15].map(|kind| Frame::new(&[&plain(kind, 0)], &[]));
    let of_two = pairs(binary).map(|pair| Frame::new(&[&pair], &[&var(1)]));
    of_two.chain(posts).chain([dot(), Frame::new(&[&plain(9, 0)], &[&var(0), &var(1)])])
}

/// Records with two operands: binary, Assignment, Bracket, Comma, and a call with one argument.
fn pairs(binary: &[u8]) -> impl Iterator<Item = Vec<u8>> + '_ {
    let operators = binary.iter().map(|&op| plain(8, op)).chain(ASSIGNMENT.map(|op| plain(10, op)));
    operators.chain([plain(11, 0), plain(16, 0), many(12, 1)])
}

/// Where an expression stands by itself: as an argument or a callee, and in a callee's type: as its dimension, as that
/// of a struct's field behind the type or behind the name, as the value of a layout, as a dimension of a subroutine's type.
fn places() -> Vec<Frame> {
    let call = many(12, 0);
    let sized = all(&[&many(24, 1), &plain(25, 1)]);
    let array = all(&[&plain(20, 1), &plain(21, 2), &sized]);
    let structure = all(&[&call, &plain(20, 0), &many(23, 1)]);
    let qualified = all(&[&structure, &rec(26, 1, 1, 0, 0), &many(28, 1)]);
    let name = named(27, 0, 1);
    let member = all(&[&keyword(2), &name]);
    vec![
        Frame::new(&[&many(12, 2), &var(2), &var(0)], &[]),
        Frame::new(&[&call], &[]),
        Frame::new(&[&call, &array], &[]),
        Frame::new(&[&structure, &many(26, 1), &array], &[&name]),
        Frame::new(&[&structure, &many(26, 1), &keyword(2), &named(27, 1, 1), &sized], &[]),
        Frame::new(&[&qualified, &rec(29, 18, 1, 0, 0), &named(30, 1, 0)], &[&member]),
        Frame::new(&[&qualified, &rec(29, 17, 1, 0, 0), &array], &[&member]),
    ]
}

/// Where an expression stands in a unit.
fn unit_places() -> Vec<Frame> {
    let unit = many(80, 1);
    let declarations = in_declarations().into_iter().map(|frame| Frame { front: all(&[&unit, &frame.front]), ..frame });
    let body = all(&[&unit, &function(2), &many(60, 1)]);
    let statements = in_statements().into_iter().map(|frame| Frame { front: all(&[&body, &frame.front]), ..frame });
    declarations.chain(statements).collect()
}

/// A list of declarators whose first is `int a`, with so many others behind it.
fn first_declarator(variant: u8, others: u16) -> Vec<u8> {
    all(&[&plain(47, 1), &many(42, others), &named(43, variant, 0), &plain(31, 0), &keyword(2)])
}

/// In a declaration: as an initializer, a dimension of each sort of type and name, or a layout's value.
fn in_declarations() -> Vec<Frame> {
    let sized = all(&[&many(24, 1), &plain(25, 1)]);
    let array = all(&[&plain(20, 1), &plain(21, 2), &sized]);
    let sized_name = all(&[&named(27, 1, 1), &sized]);
    let typed = all(&[&plain(47, 1), &plain(42, 0), &named(43, 1, 0), &plain(31, 0)]);
    let prototype = |count: u16| all(&[&plain(47, 0), &rec(40, 0, count, 2, 1), &plain(31, 0)]);
    let parameter = all(&[&prototype(1), &keyword(0)]);
    let qualifier = all(&[&plain(47, 5), &many(28, 1)]);
    let block = |variant, count| all(&[&plain(47, 3), &rec(46, variant, count, 2, 1), &many(28, 1), &plain(29, 7)]);
    let (simple, next) = (plain(45, 0), first_declarator(1, 1));
    vec![
        Frame::new(&[&first_declarator(5, 0), &simple], &[]),
        Frame::new(&[&first_declarator(5, 0), &rec(45, 1, 2, 0, 0), &simple], &[&simple, &int(1)]),
        Frame::new(&[&next, &plain(44, 1), &named(27, 0, 1), &simple], &[]),
        Frame::new(&[&next, &plain(44, 0), &sized_name], &[]),
        Frame::new(&[&first_declarator(3, 0), &sized], &[]),
        Frame::new(&[&typed, &array], &[]),
        Frame::new(&[&typed, &plain(20, 0), &many(23, 1), &many(26, 1), &array], &[&named(27, 0, 1)]),
        Frame::new(&[&prototype(0), &array], &[]),
        Frame::new(&[&parameter, &plain(41, 0), &array], &[]),
        Frame::new(&[&parameter, &plain(41, 1), &keyword(2), &sized_name], &[]),
        Frame::new(&[&plain(47, 2), &plain(29, 19), &array], &[]),
        Frame::new(&[&block(0, 1), &many(26, 1), &keyword(2), &sized_name], &[]),
        Frame::new(&[&block(1, 0), &sized_name], &[]),
        Frame::new(&[&qualifier, &rec(29, 18, 1, 0, 0), &named(30, 1, 0)], &[]),
        Frame::new(&[&qualifier, &rec(29, 17, 1, 0, 0), &array], &[]),
    ]
}

/// In a statement: by itself, as a condition of each sort, in the head of a `switch` or of a `for`, behind `case` or `return`.
fn in_statements() -> Vec<Frame> {
    let (empty, simple) = (plain(61, 0), plain(45, 0));
    let initialized = all(&[&first_declarator(5, 0), &simple]);
    let assigned = all(&[&named(69, 1, 0), &plain(31, 0), &keyword(2), &simple]);
    let no_start = plain(70, 0);
    vec![
        Frame::new(&[&plain(61, 1)], &[]),
        Frame::new(&[&initialized], &[]),
        Frame::new(&[&plain(62, 0)], &[&empty]),
        Frame::new(&[&plain(62, 1), &var(0), &empty, &plain(61, 1)], &[]),
        Frame::new(&[&many(63, 0)], &[]),
        Frame::new(&[&plain(64, 1)], &[]),
        Frame::new(&[&plain(65, 0), &plain(69, 0)], &[&empty]),
        Frame::new(&[&plain(65, 0), &assigned], &[&empty]),
        Frame::new(&[&plain(66, 0), &empty], &[]),
        Frame::new(&[&plain(67, 0), &plain(70, 1)], &[&empty]),
        Frame::new(&[&plain(67, 0), &plain(70, 2), &initialized], &[&empty]),
        Frame::new(&[&plain(67, 1), &no_start, &plain(69, 0)], &[&empty]),
        Frame::new(&[&plain(67, 1), &no_start, &assigned], &[&empty]),
        Frame::new(&[&plain(67, 2), &no_start], &[&empty]),
        Frame::new(&[&plain(68, 4)], &[]),
    ]
}

#[cfg(test)]
mod tests {
    use super::*;
    use crate::joined::{is_joined, JOINTS};
    use crate::record::SIZE;
    use crate::{read, tokens};
    use std::collections::BTreeSet;

    /// All are good; each sort of joint is met alone, and so is none.
    #[test]
    fn signs_meet_and_do_not() {
        let (mut alone, mut apart, mut all) = ([0; 3], 0, 0);
        for question in questions() {
            let tree = read::expr(&question.records, &question.names).expect("a good tree");
            assert_eq!(tree.unlike_display, None);
            all += 1;
            let tokens = tokens::expr(&tree.tree);
            apart += usize::from(!tokens.are_joined());
            for (count, joint) in alone.iter_mut().zip(JOINTS) {
                *count += usize::from(tokens.are_joined_only_by(joint));
            }
        }
        assert!(all < 170_000, "{all}");
        assert!(apart > 100_000 && alone.iter().all(|&count| count > 1_000), "{apart}, {alone:?}");
    }

    /// Every operator stands over every kind of expression, and in every place something is joined and something is not.
    #[test]
    fn operators_stand_over_every_kind_in_every_place() {
        for place in places().into_iter().chain([ALONE]) {
            let (mut kinds, mut answers) = (BTreeSet::new(), BTreeSet::new());
            for (at, operator) in operators().iter().enumerate() {
                for operand in operands() {
                    kinds.insert((at, operand[0]));
                    let records = place.around(&operator.around(&operand));
                    answers.insert(is_joined(&read::expr(&records, NAMES.as_bytes()).expect("a good tree").tree));
                }
            }
            assert_eq!((kinds.len(), answers.len()), (16 * operators().len(), 2));
        }
    }

    /// Whatever operand something is, it is looked at.
    #[test]
    fn every_frame_is_around_every_sort_of_joint() {
        let is_alone = |records: &[u8], joint| {
            let whole = read::expr(records, NAMES.as_bytes()).expect("a good tree");
            tokens::expr(&whole.tree).are_joined_only_by(joint)
        };
        for frame in frames() {
            let trees: Vec<_> = over(vec![frame], nearly_joined()).collect();
            assert!(JOINTS.into_iter().all(|joint| trees.iter().any(|records| is_alone(records, joint))));
        }
    }

    /// In every place of a unit each sort of joint is met, and none.
    #[test]
    fn every_place_of_a_unit_is_around_every_sort_of_joint() {
        for place in unit_places() {
            let mut met = BTreeSet::new();
            for records in over(vec![place], nearly_joined()) {
                let tree = read::unit(&records, NAMES.as_bytes()).expect("a good tree").tree;
                met.insert(tokens::unit(&tree, false).joints().next());
            }
            assert_eq!(met, JOINTS.into_iter().map(Some).chain([None]).collect());
        }
        assert_eq!(in_units().count(), 30 * nearly_joined().count());
    }

    /// Every kind with operands stands directly over every other, and deeper all of those that have a first one.
    #[test]
    fn first_operands_are_of_every_kind() {
        let kinds: BTreeSet<[u8; 2]> = twice_framed().map(|tree| [tree[0], tree[SIZE]]).collect();
        assert!((7..=16).all(|kind| (7..=16).all(|below| kinds.contains(&[kind, below]))));
        let deep: BTreeSet<[u8; 3]> = three_times_first().map(|tree| [0, 2, 3].map(|at| tree[at * SIZE])).collect();
        assert_eq!(deep.len(), 9 * 9 * 9);
    }
}
