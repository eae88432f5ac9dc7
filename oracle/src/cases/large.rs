//! Trees of many records, on which times are taken: grown ones, ones like a shader's, deep ones, and calls with many names
//! or numbers.

use super::tight;
use crate::answer::{Question, Root};
use crate::grow;
use crate::random::Random;
use crate::read::{DEEPEST, MOST_NAMES};
use crate::record::{Record, SIZE};
use crate::tree::{all, many, var};
use crate::words::{self, Judgement};

/// Why a number fits its field.
const SMALL: &str = "a tree has at most 4,096 records and 32,768 bytes of names";

/// A tree of at most so many records: the declarations of grown units, one behind the other, or grown expressions as the
/// arguments of one call.
pub fn grown(root: Root, seed: u64, size: usize) -> Question {
    let mut whole = Whole::new(root, seed);
    for case in 0.. {
        if !whole.take(&grow::rooted(root, seed, case), size) {
            break;
        }
    }
    whole.question()
}

/// A tree that is being put together: a unit, or a call of `f`, which has as many children as there will be.
struct Whole {
    root: Root,
    random: Random,
    children: u16,
    records: Vec<u8>,
    names: Vec<u8>,
}

impl Whole {
    fn new(root: Root, seed: u64) -> Self {
        let names = match root {
            Root::Unit => Vec::new(),
            Root::Expr => b"f".to_vec(),
        };
        Self { root, random: Random::new(seed, 0), children: 0, records: Vec::new(), names }
    }

    /// What stands in front of the children.
    fn front(&self) -> Vec<u8> {
        match self.root {
            Root::Unit => many(80, self.children),
            Root::Expr => all(&[&many(12, self.children), &var(0)]),
        }
    }

    /// The number of records.
    fn size(&self) -> usize {
        (self.front().len() + self.records.len()) / SIZE
    }

    /// Takes another unit's declarations, or an expression, if there is room.
    fn take(&mut self, part: &Question, size: usize) -> bool {
        let shift = u32::try_from(self.names.len()).expect(SMALL);
        let records = part.records.as_chunks::<SIZE>().0;
        let (children, taken) = match part.root {
            Root::Unit => (Record::from_bytes(&records[0]).count, &records[1..]),
            Root::Expr => (1, records),
        };
        let fits = self.size() + taken.len() <= size && self.names.len() + part.names.len() <= MOST_NAMES;
        if fits {
            self.children += children;
            self.names.extend(&part.names);
            for bytes in taken {
                let record = Record::from_bytes(bytes);
                // What has a length has a text.
                let a = if record.b == 0 { record.a } else { record.a + shift };
                self.records.extend(Record { a, ..record }.to_bytes());
            }
        }
        fits
    }

    fn question(self) -> Question {
        tight(self.root, all(&[&self.front(), &self.records]), self.names)
    }

    /// A call of [`ATOMS`] arguments, each a record; the names are those there are.
    fn call(&mut self, mut atom: impl FnMut(&mut Random) -> Record) -> Question {
        self.children = ATOMS;
        let atoms: Vec<u8> = (0..ATOMS).flat_map(|_| atom(&mut self.random).to_bytes()).collect();
        tight(self.root, all(&[&self.front(), &atoms]), self.names.clone())
    }
}

const VARIABLES: [&str; 32] = [
    "color",
    "position",
    "normal",
    "uv",
    "lightDir",
    "viewDir",
    "halfVec",
    "i",
    "j",
    "n",
    "p",
    "t",
    "eye",
    "depth",
    "shadow",
    "diffuse",
    "specular",
    "ambient",
    "roughness",
    "metallic",
    "tangent",
    "v_texCoord",
    "u_time",
    "u_resolution",
    "modelViewMatrix",
    "projectionMatrix",
    "gl_Position",
    "gl_FragCoord",
    "fragColor",
    "result",
    "sum",
    "weight",
];
const FUNCTIONS: [&str; 16] = [
    "normalize",
    "dot",
    "max",
    "min",
    "pow",
    "mix",
    "clamp",
    "texture",
    "length",
    "cross",
    "reflect",
    "smoothstep",
    "fract",
    "sin",
    "noise",
    "shade",
];
const FIELDS: [&str; 8] = ["xyz", "x", "y", "z", "w", "rgb", "a", "xy"];
const FLOATS: [&str; 10] = ["0", "1", "2", "0.5", "0.25", "3.14159", "0.001", "16", "0.2126", "100"];

/// The names that [`shader`] takes from.
pub fn shader_names() -> Vec<Vec<u8>> {
    VARIABLES.iter().chain(&FUNCTIONS).chain(&FIELDS).map(|word| word.as_bytes().to_vec()).collect()
}

/// Where the words of a table lie in the names.
type Pool = Vec<(u32, u32)>;

/// Writes a tree like a shader's.
struct Shader {
    whole: Whole,
    variables: Pool,
    parameters: Pool,
    functions: Pool,
    fields: Pool,
    floats: Pool,
}

/// A tree like a shader's, of about so many records: declarations, and functions with statements that are mostly
/// expressions, or such expressions alone; names are words of one to sixteen letters, each once in the names.
pub fn shader(root: Root, seed: u64, size: usize) -> Question {
    let mut shader = Shader::new(root, seed);
    match root {
        Root::Unit => shader.fill_unit(size),
        Root::Expr => shader.fill_call(size),
    }
    shader.whole.question()
}

/// A call of at most so many records whose arguments are binary operators in one another, as deep as can be, each with
/// a variable for its other operand.
pub fn nested(seed: u64, size: usize) -> Question {
    // The call is at 1, the innermost operand at the greatest depth.
    const OPERATORS: usize = DEEPEST - 2;
    let mut shader = Shader::new(Root::Expr, seed);
    while shader.whole.size() + 2 * OPERATORS < size {
        shader.whole.children += 1;
        shader.nest(OPERATORS);
    }
    shader.whole.question()
}

/// Puts words behind the names.
fn pool(names: &mut Vec<u8>, words: &[&str]) -> Pool {
    words.iter().map(|word| put(names, word.as_bytes())).collect()
}

/// Puts a text behind the names.
fn put(names: &mut Vec<u8>, text: &[u8]) -> (u32, u32) {
    let start = names.len();
    names.extend(text);
    (u32::try_from(start).expect(SMALL), u32::try_from(text.len()).expect(SMALL))
}

impl Shader {
    fn new(root: Root, seed: u64) -> Self {
        let mut whole = Whole::new(root, seed);
        let names = &mut whole.names;
        let [variables, functions, fields, floats] =
            [&VARIABLES[..], &FUNCTIONS, &FIELDS, &FLOATS].map(|words| pool(names, words));
        let ordinary = VARIABLES.map(|word| words::judge(word.as_bytes()) == Judgement::Ordinary);
        let parameters =
            variables.iter().zip(ordinary).filter(|(_, ordinary)| *ordinary).map(|(name, _)| *name).collect();
        Self { whole, variables, parameters, functions, fields, floats }
    }

    fn fill_unit(&mut self, size: usize) {
        for _ in 0..12 {
            self.global();
        }
        // A function has some 150 records, at most about 500.
        while self.whole.size() + 500 <= size {
            self.function();
        }
        while self.whole.size() + 8 <= size {
            self.global();
        }
    }

    fn fill_call(&mut self, size: usize) {
        // An expression has some 10 records, at most about 300.
        while self.whole.size() + 300 <= size {
            self.whole.children += 1;
            self.expr(4);
        }
    }

    /// So many binary operators in one another, on the left or on the right.
    fn nest(&mut self, operators: usize) {
        let Some(inside) = operators.checked_sub(1) else {
            return self.put_variable(1, 0);
        };
        let op = self.whole.random.byte(18);
        self.put(8, op, 0);
        if self.whole.random.chance(50) {
            self.nest(inside);
            self.put_variable(1, 0);
        } else {
            self.put_variable(1, 0);
            self.nest(inside);
        }
    }

    fn put(&mut self, kind: u8, variant: u8, count: usize) {
        self.put_text(kind, variant, count, (0, 0));
    }

    fn put_text(&mut self, kind: u8, variant: u8, count: usize, (a, b): (u32, u32)) {
        let count = u16::try_from(count).expect(SMALL);
        self.whole.records.extend(Record { kind, variant, count, a, b }.to_bytes());
    }

    fn put_variable(&mut self, kind: u8, variant: u8) {
        let name = self.whole.random.one_of(&self.variables);
        self.put_text(kind, variant, 0, name);
    }

    /// A parameter's name: that of a variable, but no reserved one (02, #105).
    fn put_parameter(&mut self) {
        let name = self.whole.random.one_of(&self.parameters);
        self.put_text(27, 0, 0, name);
    }

    /// A keyword type: float and the vectors, mostly.
    fn keyword(&mut self) {
        let word = self.whole.random.weighted(&[(30, 4), (10, 2), (15, 6), (25, 7), (15, 8), (5, 23)]).unwrap_or(4);
        self.put(20, 0, 0);
        self.put(21, word, 0);
    }

    /// `uniform vec3 name;`, or in, out, const.
    fn global(&mut self) {
        self.whole.children += 1;
        self.put(47, 1, 0);
        self.put(42, 0, 0);
        self.put_variable(43, 1);
        self.put(31, 1, 0);
        self.put(28, 0, 1);
        let word = self.whole.random.weighted(&[(50, 7), (25, 2), (25, 3)]).unwrap_or(7);
        self.put(29, word, 0);
        self.keyword();
    }

    fn function(&mut self) {
        self.whole.children += 1;
        let parameters = self.whole.random.between(0, 3);
        self.put(81, 0, 0);
        let name = self.whole.random.one_of(&self.functions);
        self.put_text(40, 0, parameters, name);
        self.put(31, 0, 0);
        self.keyword();
        for _ in 0..parameters {
            self.put(41, 1, 0);
            self.keyword();
            self.put_parameter();
        }
        let statements = self.whole.random.between(4, 10);
        self.block(statements, 2);
    }

    fn block(&mut self, statements: usize, depth: usize) {
        self.put(60, 0, statements);
        for _ in 0..statements {
            self.statement(depth);
        }
    }

    fn statement(&mut self, depth: usize) {
        let deeper = if depth > 0 { 1 } else { 0 };
        let sort = self.whole.random.weighted(&[(35, 0), (45, 1), (8, 2), (12 * deeper, 3), (5 * deeper, 4)]);
        match sort {
            Some(0) => self.local(),
            Some(2) => {
                self.put(68, 4, 0);
                self.expr(3);
            }
            Some(3) => {
                let variant = self.whole.random.byte(1);
                self.put(62, variant, 0);
                self.expr(2);
                for _ in 0..=variant {
                    let statements = self.whole.random.between(1, 3);
                    self.block(statements, depth - 1);
                }
            }
            Some(4) => {
                self.put(67, 3, 0);
                self.put(70, 2, 0);
                self.local();
                self.put(69, 0, 0);
                self.expr(1);
                self.put(14, 0, 0);
                self.put_variable(1, 0);
                self.block(2, depth - 1);
            }
            _ => {
                self.put(61, 1, 0);
                self.put(10, 0, 0);
                self.place();
                self.expr(4);
            }
        }
    }

    /// `vec3 name = expression;`
    fn local(&mut self) {
        self.put(47, 1, 0);
        self.put(42, 0, 0);
        self.put_variable(43, 5);
        self.put(31, 0, 0);
        self.keyword();
        self.put(45, 0, 0);
        self.expr(4);
    }

    /// A variable, or a field of one.
    fn place(&mut self) {
        if self.whole.random.chance(40) {
            let name = self.whole.random.one_of(&self.fields);
            self.put_text(13, 0, 0, name);
        }
        self.put_variable(1, 0);
    }

    fn expr(&mut self, depth: usize) {
        let deeper = if depth > 0 { 1 } else { 0 };
        let sort = self.whole.random.weighted(&[
            (20, 0),
            (10, 1),
            (4, 2),
            (35 * deeper, 3),
            (16 * deeper, 4),
            (5 * deeper, 5),
        ]);
        match sort {
            Some(1) => {
                let text = self.whole.random.one_of(&self.floats);
                self.put_text(5, 0, 0, text);
            }
            Some(2) => {
                let a = shader_number(&mut self.whole.random);
                self.put_text(2, 0, 0, (a, 0));
            }
            Some(3) => {
                let op = self.whole.random.weighted(&[(30, 16), (30, 14), (20, 15), (10, 17), (10, 8)]).unwrap_or(14);
                self.put(8, op, 0);
                self.expr(depth - 1);
                self.expr(depth - 1);
            }
            Some(4) => {
                let arguments = self.whole.random.between(1, 3);
                self.put(12, 0, arguments);
                if self.whole.random.chance(30) {
                    self.keyword();
                } else {
                    let name = self.whole.random.one_of(&self.functions);
                    self.put_text(1, 0, 0, name);
                }
                for _ in 0..arguments {
                    self.expr(depth - 1);
                }
            }
            Some(5) => {
                self.put(7, 3, 0);
                self.expr(depth - 1);
            }
            _ => self.place(),
        }
    }
}

/// A whole number as [`shader`] has them.
fn shader_number(random: &mut Random) -> u32 {
    random.bits32() % 16
}

/// Arguments of the calls that [`atoms`], [`numbers`] and [`shader_numbers`] make.
pub const ATOMS: u16 = 4_000;

/// Two calls of [`ATOMS`] arguments: each a variable, named by one of the texts at random; each a bool.
pub fn atoms(seed: u64, texts: &[Vec<u8>]) -> [Question; 2] {
    let mut whole = Whole::new(Root::Expr, seed);
    let places: Pool = texts.iter().map(|text| put(&mut whole.names, text)).collect();
    let variables = whole.call(|random| {
        let (a, b) = random.one_of(&places);
        Record { kind: 1, a, b, ..Record::default() }
    });
    let bools = whole.call(|random| Record { kind: 4, variant: random.byte(1), ..Record::default() });
    [variables, bools]
}

/// The most digits of a whole number.
pub const MOST_DIGITS: u32 = 10;

/// Which whole numbers are the arguments of a call.
#[derive(Clone, Copy, Debug, PartialEq, Eq)]
pub enum Number {
    /// An IntConst above 0.
    Int,
    /// An IntConst below 0.
    Negative,
    /// A UIntConst above 0.
    UInt,
}

impl Number {
    /// A record of such a number with so many digits, 1 to [`MOST_DIGITS`].
    fn record(self, random: &mut Random, digits: u32) -> Record {
        let (kind, greatest) = match self {
            Self::Int | Self::Negative => (2, i32::MAX.unsigned_abs()),
            Self::UInt => (3, u32::MAX),
        };
        let least = 10_u32.pow(digits - 1);
        // Ten times the least has a digit more, or is beyond 32 bits.
        let most = least.checked_mul(10).map_or(greatest, |more| more - 1);
        let number = least + random.bits32() % (most - least + 1);
        let a = if self == Self::Negative { number.wrapping_neg() } else { number };
        Record { kind, a, ..Record::default() }
    }
}

/// A call of [`ATOMS`] arguments: whole numbers of least to most digits. The length is chosen first, so that there are
/// as many short ones as long ones.
pub fn numbers(seed: u64, number: Number, least: u32, most: u32) -> Question {
    Whole::new(Root::Expr, seed).call(|random| {
        let digits = least + random.bits32() % (most - least + 1);
        number.record(random, digits)
    })
}

/// A call of [`ATOMS`] arguments: IntConsts as [`shader`] has them.
pub fn shader_numbers(seed: u64) -> Question {
    Whole::new(Root::Expr, seed).call(|random| Record { kind: 2, a: shader_number(random), ..Record::default() })
}

#[cfg(test)]
mod tests {
    use super::*;
    use crate::answer::{answer, Outcome};
    use std::collections::BTreeSet;

    fn is_good(question: &Question) -> bool {
        matches!(answer(question).text, Outcome::Given(_))
    }

    #[test]
    fn large_trees_are_good_and_large() {
        for seed in 0..20 {
            let both = [Root::Unit, Root::Expr].map(|root| [grown(root, seed, 4_000), shader(root, seed, 4_000)]);
            for tree in both.into_iter().flatten().chain([nested(seed, 4_000)]) {
                assert!(is_good(&tree), "seed {seed}");
                assert!((3_400..=4_000).contains(&(tree.records.len() / SIZE)), "seed {seed}");
            }
        }
    }

    #[test]
    fn nested_trees_are_as_deep_as_can_be() {
        let Question { root, records, names, .. } = nested(1, 4_000);
        let deeper = all(&[&crate::tree::plain(7, 4), &records]);
        let refusal = crate::read::refusal(&tight(root, deeper, names));
        assert_eq!(refusal.map(|refusal| refusal.number()), Some(6));
    }

    #[test]
    fn atoms_are_good() {
        for call in atoms(1, &[b"a".to_vec(), b"bc".to_vec()]) {
            assert!(is_good(&call));
            assert_eq!(call.records.len() / SIZE, 4_002);
        }
    }

    /// The arguments' texts.
    fn arguments(call: &Question) -> Vec<String> {
        let Outcome::Given(text) = answer(call).text else {
            panic!("a good tree");
        };
        let inside = text.strip_prefix("f(").and_then(|text| text.strip_suffix(')')).expect("a call of f");
        inside.split(',').map(str::to_owned).collect()
    }

    #[test]
    fn numbers_have_the_digits_that_are_asked_for() {
        let mixed = (1, MOST_DIGITS);
        for (least, most) in (1..=MOST_DIGITS).map(|digits| (digits, digits)).chain([mixed]) {
            for (number, front, back) in [(Number::Int, "", ""), (Number::Negative, "-", ""), (Number::UInt, "", "u")] {
                let texts = arguments(&numbers(1, number, least, most));
                let digits = |text: &str| Some(text.strip_prefix(front)?.strip_suffix(back)?.to_owned());
                let numbers: Option<Vec<String>> = texts.iter().map(|text| digits(text)).collect();
                let numbers = numbers.expect("all have the sign and the suffix");
                assert_eq!(numbers.len(), usize::from(ATOMS));
                assert!(numbers.iter().flat_map(|text| text.bytes()).all(|byte| byte.is_ascii_digit()));
                let lengths: BTreeSet<usize> = numbers.iter().map(String::len).collect();
                assert!(lengths.into_iter().eq(least as usize..=most as usize), "{number:?} of {least} to {most}");
            }
        }
    }

    #[test]
    fn numbers_of_a_shader_are_small() {
        let texts: BTreeSet<String> = arguments(&shader_numbers(1)).into_iter().collect();
        assert_eq!(texts, (0..16).map(|number| number.to_string()).collect());
    }
}
