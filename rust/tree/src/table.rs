//! Document 01's table of kinds ("Tree records"; the type keywords are document 02's, #102, and which names are declared,
//! #105), with the words that a text has for them: each kind, its variants, what it holds and its children, said once.
//! Reading, writing and explaining all go by it.

use Class::{Base, Callee, Declaring, Expression, External, Only, Precision, Statement};
use Holds::{Float, Name, Nothing, PerhapsName, Signed, Unsigned};
use Part::{Any, AtLeastOne, One, Perhaps};

/// What a place asks for.
#[derive(Clone, Copy, Debug, PartialEq, Eq)]
pub enum Class {
    /// A unit, or an expression.
    Root,
    /// Any expression.
    Expression,
    /// A type or an expression.
    Callee,
    /// A type keyword, a type's name or a struct.
    Base,
    /// A declaration or any other statement.
    Statement,
    /// A declaration or a function.
    External,
    /// `highp`, `mediump` or `lowp`.
    Precision,
    /// Records of one kind.
    Only(u8),
    /// Records of one kind, whose name is declared there.
    Declaring(u8),
}

impl Class {
    /// Whether a record of this kind may stand there.
    pub fn takes_kind(self, kind: u8) -> bool {
        match self {
            Class::Root => kind == UNIT || Class::Expression.takes_kind(kind),
            Class::Expression => (1..=16).contains(&kind),
            Class::Callee => kind == TYPE || Class::Expression.takes_kind(kind),
            Class::Base => (21..=23).contains(&kind),
            Class::Statement => kind == DECLARATION || (60..=68).contains(&kind),
            Class::External => kind == DECLARATION || kind == FUNCTION,
            Class::Precision => kind == QUALIFIER,
            Class::Only(only) | Class::Declaring(only) => kind == only,
        }
    }

    /// Whether a record of this kind and variant may.
    pub fn takes(self, kind: u8, variant: u8) -> bool {
        self.takes_kind(kind) && (self != Class::Precision || (19..=21).contains(&variant))
    }

    /// Whether the name of a record that stands there is declared, whatever its kind says.
    pub fn declares(self) -> bool {
        matches!(self, Class::Declaring(_))
    }

    /// The nodes that may stand there.
    fn members(self) -> String {
        let members = FORMS.iter().filter(|form| self.takes(form.kind, form.variant));
        members.map(|form| form.label).collect::<Vec<_>>().join(", ")
    }

    /// What may stand there, in words.
    pub fn called(self) -> String {
        match self {
            Class::Root => "Unit (or an expression, where one is printed)".into(),
            Class::Expression => "an expression".into(),
            Class::Callee => "Type or an expression".into(),
            Class::Base => "Keyword, TypeName or Struct".into(),
            Class::Statement => "a statement".into(),
            Class::External => "Declaration or Function".into(),
            Class::Precision => "Precision".into(),
            Class::Only(QUALIFIER) => self.members(),
            Class::Only(DECLARATION) => "Declaration".into(),
            Class::Only(kind) | Class::Declaring(kind) => {
                form_of(kind, 0).map_or_else(|| format!("kind {kind}"), |form| form.label.into())
            }
        }
    }
}

/// Children of a node.
#[derive(Clone, Copy, Debug)]
pub enum Part {
    /// One child.
    One(Class),
    /// One child or none; where there is one, so much is added to the variant.
    Perhaps(u8, Class),
    /// As many as the count says.
    Any(Class),
    /// As many as the count says, which is 1 at least.
    AtLeastOne(Class),
}

/// What the fields a and b hold.
#[derive(Clone, Copy, Debug, PartialEq, Eq)]
pub enum Holds {
    /// Nothing: both are 0.
    Nothing,
    /// A signed number.
    Signed,
    /// A number without sign.
    Unsigned,
    /// A name.
    Name,
    /// A name or nothing; where there is one, so much is added to the variant.
    PerhapsName(u8),
    /// The text of a float.
    Float,
}

impl Holds {
    /// How a line shows it, by an example.
    fn shown(self) -> &'static str {
        match self {
            Holds::Nothing => "",
            Holds::Signed => " -1",
            Holds::Unsigned => " 1",
            Holds::Name => " \"name\"",
            Holds::PerhapsName(_) => " [\"name\"]",
            Holds::Float => " \"1.5\"",
        }
    }
}

/// Some variants of a kind that have the same words, hold the same and have the same children.
#[derive(Debug)]
pub struct Form {
    /// The kind's number.
    pub kind: u8,
    /// The least variant.
    pub variant: u8,
    /// The words that a line begins with.
    pub label: &'static str,
    /// The words one of which comes next, in the order of variants; no such word where there are none.
    pub choices: &'static [&'static str],
    /// What a and b hold.
    pub holds: Holds,
    /// Whether a name that they hold is declared wherever the record stands: it is none that GLSL keeps for itself.
    pub declares: bool,
    /// The children.
    pub parts: &'static [Part],
}

impl Form {
    /// Whether a record of this kind and variant has this form.
    fn covers(&self, kind: u8, variant: u8) -> bool {
        let Some(more) = variant.checked_sub(self.variant) else { return false };
        let within =
            if self.choices.is_empty() { more & !self.flags() == 0 } else { usize::from(more) < self.choices.len() };
        kind == self.kind && within
    }

    /// All that may be added to the variant.
    fn flags(&self) -> u8 {
        let name = if let Holds::PerhapsName(flag) = self.holds { flag } else { 0 };
        self.parts.iter().fold(name, |sum, part| if let Part::Perhaps(flag, _) = part { sum | flag } else { sum })
    }

    /// Whether a variant of this form has what adds a flag.
    pub fn has(&self, variant: u8, flag: u8) -> bool {
        variant.wrapping_sub(self.variant) & flag != 0
    }

    /// Whether a record of this variant names a text.
    pub fn has_text(&self, variant: u8) -> bool {
        match self.holds {
            Holds::Name | Holds::Float => true,
            Holds::PerhapsName(flag) => self.has(variant, flag),
            Holds::Nothing | Holds::Signed | Holds::Unsigned => false,
        }
    }

    /// Whether a record of this form declares its name where a class is asked for.
    pub fn declares_in(&self, class: Class) -> bool {
        self.declares || class.declares()
    }

    /// The words of a variant.
    pub fn head(&self, variant: u8) -> String {
        match self.choices.get(usize::from(variant.wrapping_sub(self.variant))) {
            Some(choice) => format!("{} {choice}", self.label),
            None => self.label.into(),
        }
    }

    /// The children of a variant, in order: what they are and how many, for a record with this count.
    pub fn children(&self, variant: u8, count: u16) -> Vec<(Class, u16)> {
        let number = |part: &Part| match *part {
            Part::One(class) => (class, 1),
            Part::Perhaps(flag, class) => (class, u16::from(self.has(variant, flag))),
            Part::Any(class) | Part::AtLeastOne(class) => (class, count),
        };
        self.parts.iter().map(number).collect()
    }

    /// Whether the count is used, and whether it must be 1 at least.
    pub fn counts(&self) -> (bool, bool) {
        let some = self.parts.iter().any(|part| matches!(part, Part::AtLeastOne(_)));
        (some || self.parts.iter().any(|part| matches!(part, Part::Any(_))), some)
    }

    /// The children in words.
    pub fn parts_called(&self) -> String {
        let called = |part: &Part| match part {
            Part::One(class) => class.called(),
            Part::Perhaps(_, class) => format!("[{}]", class.called()),
            Part::Any(class) => format!("any number of: {}", class.called()),
            Part::AtLeastOne(class) => format!("one or more of: {}", class.called()),
        };
        match self.parts {
            [] => "no children".into(),
            parts => parts.iter().map(called).collect::<Vec<_>>().join("; "),
        }
    }
}

/// All nodes in words: what each line may say, and the children below it; then what counts as expression and statement.
pub fn all_words() -> String {
    let line = |form: &Form| {
        let choices = if form.choices.is_empty() { String::new() } else { format!(" {}", form.choices.join("|")) };
        format!("{}{choices}{}\n    {}\n", form.label, form.holds.shown(), form.parts_called())
    };
    let group = |class: &Class| format!("{} is one of\n    {}\n", class.called(), class.members());
    FORMS.iter().map(line).chain([Expression, Statement].iter().map(group)).collect()
}

/// The form of a record; nothing where the documents have no such kind or variant.
pub fn form_of(kind: u8, variant: u8) -> Option<&'static Form> {
    FORMS.iter().find(|form| form.covers(kind, variant))
}

/// The form that has these words, and its variant before anything is added for children and names.
pub fn form_called(head: &str) -> Option<(&'static Form, u8)> {
    FORMS.iter().find_map(|form| match form.choices {
        [] => (form.label == head).then_some((form, form.variant)),
        choices => {
            let chosen = head.strip_prefix(form.label)?.strip_prefix(' ')?;
            let index = choices.iter().position(|choice| *choice == chosen)?;
            Some((form, form.variant.checked_add(u8::try_from(index).ok()?)?))
        }
    })
}

// Kinds that stand where others do too.
const TYPE: u8 = 20;
const QUALIFIER: u8 = 29;
const DECLARATION: u8 = 47;
const UNIT: u8 = 80;
const FUNCTION: u8 = 81;

/// Kind 7: `show_unary_op`'s order.
const UNARY: &[&str] = &["Inc", "Dec", "Add", "Minus", "Not", "Complement"];

/// Kind 8: `show_binary_op`'s order.
#[rustfmt::skip]
const BINARY: &[&str] = &[
    "Or", "Xor", "And", "BitOr", "BitXor", "BitAnd", "Equal", "NonEqual", "Lt", "Gt", "Lte", "Gte", "LShift", "RShift",
    "Add", "Sub", "Mult", "Div", "Mod",
];

/// Kind 10: `show_assignment_op`'s order.
const ASSIGNMENT: &[&str] = &["Equal", "Mult", "Div", "Mod", "Add", "Sub", "LShift", "RShift", "And", "Xor", "Or"];

/// Kind 21: the type keywords, document 01's and then the sampler and image words of document 02's request #102.
#[rustfmt::skip]
const KEYWORDS: &[&str] = &[
    "void", "bool", "int", "uint", "float", "double",
    "vec2", "vec3", "vec4", "dvec2", "dvec3", "dvec4", "bvec2", "bvec3", "bvec4",
    "ivec2", "ivec3", "ivec4", "uvec2", "uvec3", "uvec4",
    "mat2", "mat3", "mat4",
    "mat2x2", "mat2x3", "mat2x4", "mat3x2", "mat3x3", "mat3x4", "mat4x2", "mat4x3", "mat4x4",
    "dmat2", "dmat3", "dmat4",
    "dmat2x2", "dmat2x3", "dmat2x4", "dmat3x2", "dmat3x3", "dmat3x4", "dmat4x2", "dmat4x3", "dmat4x4",
    "sampler2D", "sampler3D", "samplerCube", "sampler2DShadow", "sampler2DArray", "atomic_uint",
    "sampler1D", "sampler1DShadow", "sampler1DArray", "sampler1DArrayShadow",
    "isampler1D", "isampler1DArray", "usampler1D", "usampler1DArray",
    "sampler2DArrayShadow", "isampler2D", "isampler2DArray", "usampler2D", "usampler2DArray",
    "sampler2DRect", "sampler2DRectShadow", "isampler2DRect", "usampler2DRect",
    "sampler2DMS", "isampler2DMS", "usampler2DMS", "sampler2DMSArray", "isampler2DMSArray", "usampler2DMSArray",
    "isampler3D", "usampler3D",
    "samplerCubeShadow", "isamplerCube", "usamplerCube",
    "samplerCubeArray", "samplerCubeArrayShadow", "isamplerCubeArray", "usamplerCubeArray",
    "samplerBuffer", "isamplerBuffer", "usamplerBuffer",
    "image1D", "iimage1D", "uimage1D", "image1DArray", "iimage1DArray", "uimage1DArray",
    "image2D", "iimage2D", "uimage2D", "image2DArray", "iimage2DArray", "uimage2DArray",
    "image2DRect", "iimage2DRect", "uimage2DRect",
    "image2DMS", "iimage2DMS", "uimage2DMS", "image2DMSArray", "iimage2DMSArray", "uimage2DMSArray",
    "image3D", "iimage3D", "uimage3D",
    "imageCube", "iimageCube", "uimageCube", "imageCubeArray", "iimageCubeArray", "uimageCubeArray",
    "imageBuffer", "iimageBuffer", "uimageBuffer",
];

/// Kind 29, variants 0..16: `show_storage_qualifier`'s order.
#[rustfmt::skip]
const STORAGE: &[&str] = &[
    "const", "inout", "in", "out", "centroid", "patch", "sample", "uniform", "buffer", "shared", "coherent", "volatile",
    "restrict", "readonly", "writeonly", "attribute", "varying",
];

/// Kind 29, variants 19..21.
const PRECISION: &[&str] = &["highp", "mediump", "lowp"];
/// Kind 29, variants 22..24.
const INTERPOLATION: &[&str] = &["smooth", "flat", "noperspective"];

/// A form without a word of choice.
const fn form(kind: u8, variant: u8, label: &'static str, holds: Holds, parts: &'static [Part]) -> Form {
    Form { kind, variant, label, choices: &[], holds, declares: false, parts }
}

/// A form that declares the name that it holds.
const fn declaring(kind: u8, variant: u8, label: &'static str, holds: Holds, parts: &'static [Part]) -> Form {
    Form { declares: true, ..form(kind, variant, label, holds, parts) }
}

/// A form with a word of choice; it holds nothing.
const fn chosen(
    kind: u8,
    variant: u8,
    label: &'static str,
    choices: &'static [&'static str],
    parts: &'static [Part],
) -> Form {
    Form { choices, ..form(kind, variant, label, Holds::Nothing, parts) }
}

/// The table.
#[rustfmt::skip]
pub static FORMS: &[Form] = &[
    form(1, 0, "Variable", Name, &[]),
    form(2, 0, "IntConst", Signed, &[]),
    form(3, 0, "UIntConst", Unsigned, &[]),
    chosen(4, 0, "BoolConst", &["false", "true"], &[]),
    form(5, 0, "FloatConst", Float, &[]),
    form(6, 0, "DoubleConst", Float, &[]),
    chosen(7, 0, "Unary", UNARY, &[One(Expression)]),
    chosen(8, 0, "Binary", BINARY, &[One(Expression), One(Expression)]),
    form(9, 0, "Ternary", Nothing, &[One(Expression), One(Expression), One(Expression)]),
    chosen(10, 0, "Assignment", ASSIGNMENT, &[One(Expression), One(Expression)]),
    form(11, 0, "Bracket", Nothing, &[One(Expression), One(Expression)]),
    form(12, 0, "FunCall", Nothing, &[One(Callee), Any(Expression)]),
    form(13, 0, "Dot", Name, &[One(Expression)]),
    form(14, 0, "PostInc", Nothing, &[One(Expression)]),
    form(15, 0, "PostDec", Nothing, &[One(Expression)]),
    form(16, 0, "Comma", Nothing, &[One(Expression), One(Expression)]),

    form(20, 0, "Type", Nothing, &[One(Base), Perhaps(1, Only(24))]),
    chosen(21, 0, "Keyword", KEYWORDS, &[]),
    form(22, 0, "TypeName", Name, &[]),
    declaring(23, 0, "Struct", PerhapsName(1), &[Any(Only(26))]),
    form(24, 0, "Array", Nothing, &[AtLeastOne(Only(25))]),
    form(25, 0, "Dimension", Nothing, &[Perhaps(1, Expression)]),
    form(26, 0, "Field", Nothing, &[Perhaps(1, Only(28)), One(Only(20)), AtLeastOne(Only(27))]),
    form(27, 0, "Identifier", Name, &[Perhaps(1, Only(24))]),
    form(28, 0, "Qualifier", Nothing, &[AtLeastOne(Only(29))]),
    chosen(29, 0, "Storage", STORAGE, &[]),
    form(29, 17, "Subroutine", Nothing, &[Any(Only(20))]),
    form(29, 18, "Layout", Nothing, &[AtLeastOne(Only(30))]),
    chosen(29, 19, "Precision", PRECISION, &[]),
    chosen(29, 22, "Interpolation", INTERPOLATION, &[]),
    form(29, 25, "Invariant", Nothing, &[]),
    form(29, 26, "Precise", Nothing, &[]),
    form(30, 0, "LayoutId", Name, &[Perhaps(1, Expression)]),
    form(30, 2, "LayoutId shared", Nothing, &[]),
    form(31, 0, "Full type", Nothing, &[Perhaps(1, Only(28)), One(Only(20))]),

    declaring(40, 0, "Prototype", Name, &[One(Only(31)), Any(Only(41))]),
    form(41, 0, "Parameter", Nothing, &[Perhaps(2, Only(28)), One(Only(20)), Perhaps(1, Declaring(27))]),
    form(42, 0, "Declarators", Nothing, &[One(Only(43)), Any(Only(44))]),
    form(43, 0, "First declarator", PerhapsName(1), &[One(Only(31)), Perhaps(2, Only(24)), Perhaps(4, Only(45))]),
    form(44, 0, "Next declarator", Nothing, &[One(Only(27)), Perhaps(1, Only(45))]),
    form(45, 0, "Initializer", Nothing, &[One(Expression)]),
    form(45, 1, "Initializer list", Nothing, &[AtLeastOne(Only(45))]),
    form(46, 0, "Block", Name, &[One(Only(28)), Any(Only(26)), Perhaps(1, Only(27))]),
    form(47, 0, "Declaration prototype", Nothing, &[One(Only(40))]),
    form(47, 1, "Declaration list", Nothing, &[One(Only(42))]),
    form(47, 2, "Declaration precision", Nothing, &[One(Precision), One(Only(20))]),
    form(47, 3, "Declaration block", Nothing, &[One(Only(46))]),
    form(47, 4, "Declaration invariant", Name, &[]),
    form(47, 5, "Declaration qualifier", Nothing, &[One(Only(28))]),

    form(60, 0, "Compound", Nothing, &[Any(Statement)]),
    form(61, 0, "Expression", Nothing, &[Perhaps(1, Expression)]),
    form(62, 0, "If", Nothing, &[One(Expression), One(Statement), Perhaps(1, Statement)]),
    form(63, 0, "Switch", Nothing, &[One(Expression), Any(Statement)]),
    form(64, 0, "Default", Nothing, &[]),
    form(64, 1, "Case", Nothing, &[One(Expression)]),
    form(65, 0, "While", Nothing, &[One(Only(69)), One(Statement)]),
    form(66, 0, "Do", Nothing, &[One(Statement), One(Expression)]),
    form(67, 0, "For", Nothing, &[One(Only(70)), Perhaps(1, Only(69)), Perhaps(2, Expression), One(Statement)]),
    form(68, 0, "Continue", Nothing, &[]),
    form(68, 1, "Break", Nothing, &[]),
    form(68, 2, "Discard", Nothing, &[]),
    form(68, 3, "Return", Nothing, &[Perhaps(1, Expression)]),
    form(69, 0, "Condition", Nothing, &[One(Expression)]),
    form(69, 1, "Condition assignment", Name, &[One(Only(31)), One(Only(45))]),
    form(70, 0, "For start", Nothing, &[Perhaps(1, Expression)]),
    form(70, 2, "For start declaration", Nothing, &[One(Only(47))]),

    form(80, 0, "Unit", Nothing, &[Any(External)]),
    form(81, 0, "Function", Nothing, &[One(Only(40)), One(Only(60))]),
];

#[cfg(test)]
mod tests {
    use super::*;

    fn all_pairs() -> impl Iterator<Item = (u8, u8)> {
        (0..=255).flat_map(|kind| (0..=255).map(move |variant| (kind, variant)))
    }

    #[test]
    fn the_documents_have_266_kinds_with_variants() {
        assert_eq!(all_pairs().filter(|(kind, variant)| form_of(*kind, *variant).is_some()).count(), 266);
    }

    #[test]
    fn all_words_are_listed() {
        let all = all_words();
        for form in FORMS {
            assert!(all.lines().any(|line| line.starts_with(form.label)), "{}", form.label);
        }
        assert!(all.contains("\na statement is one of\n    Declaration prototype, "));
    }

    #[test]
    fn no_record_has_two_forms() {
        for (kind, variant) in all_pairs() {
            assert!(FORMS.iter().filter(|form| form.covers(kind, variant)).count() <= 1, "{kind} {variant}");
        }
    }

    #[test]
    fn words_lead_back_to_their_form() {
        for (kind, variant) in all_pairs() {
            let Some(form) = form_of(kind, variant) else { continue };
            let (found, found_variant) = form_called(&form.head(variant)).expect("it has words");
            assert!(std::ptr::eq(form, found), "{kind} {variant}");
            assert!(found_variant == variant || form.choices.is_empty(), "{kind} {variant}");
        }
    }
}
