//! The joined question (01, "Calls", as 02's request #103 mends it), as a reference: yes exactly when, in TIGHT, a binary or
//! a unary plus or minus has a bare operand (for binary, the right one) whose text begins with the same sign, or a Dot
//! stands directly over an IntConst.
//!
//! Any place of the expression counts, in the types of callees too: [`mod@tokens`] goes to all of them. Both "bare" and "begins"
//! are read off the TIGHT texts of the Rust module; no binding strength is known here.

use crate::{print, settings, tokens};
use glsl_lang::ast::{self, BinaryOpData, ExprData, UnaryOpData};

/// What joins: the three sorts that the rule names.
#[derive(Clone, Copy, Debug, PartialEq, Eq, PartialOrd, Ord)]
pub enum Joint {
    /// A binary plus or minus and its right operand: `a--b`.
    Binary,
    /// A unary plus or minus and its operand: `---a`, `--1`.
    Unary,
    /// A Dot and an IntConst: `1.x`.
    Dot,
}

/// Every sort.
pub const JOINTS: [Joint; 3] = [Joint::Binary, Joint::Unary, Joint::Dot];

/// Whether an expression is joined.
pub fn is_joined(expr: &ast::Expr) -> bool {
    tokens::expr(expr).are_joined()
}

/// How an expression's own record is joined to its operand. Parts below it do not count.
pub fn joint_at(expr: &ast::Expr) -> Option<Joint> {
    match &**expr {
        ExprData::Binary(op, _, right) => {
            let sign = binary_sign(op)?;
            meets(sign, right, &behind_a_name(op, right), "x").then_some(Joint::Binary)
        }
        ExprData::Unary(op, operand) => meets(unary_sign(op)?, operand, expr, "").then_some(Joint::Unary),
        ExprData::Dot(operand, _) => matches!(&***operand, ExprData::IntConst(_)).then_some(Joint::Dot),
        _ => None,
    }
}

/// The sign of a binary plus or minus.
fn binary_sign(op: &ast::BinaryOp) -> Option<char> {
    match **op {
        BinaryOpData::Add => Some('+'),
        BinaryOpData::Sub => Some('-'),
        _ => None,
    }
}

/// The sign of a unary plus or minus. `++` and `--` are other operators: `--` over `-a` is `---a`, which splits as `--`, `-`,
/// `a`, and so joins nothing.
fn unary_sign(op: &ast::UnaryOp) -> Option<char> {
    match **op {
        UnaryOpData::Add => Some('+'),
        UnaryOpData::Minus => Some('-'),
        UnaryOpData::Inc | UnaryOpData::Dec | UnaryOpData::Not | UnaryOpData::Complement => None,
    }
}

/// Whether an operand begins with the sign and stands bare behind it in `whole`, whose text has `front` before the sign.
fn meets(sign: char, operand: &ast::Expr, whole: &ast::Expr, front: &str) -> bool {
    let text = tight_text(operand);
    text.starts_with(sign) && tight_text(whole) == format!("{front}{sign}{text}")
}

/// `x op right`: its text shows whether the right operand is bare, whatever stood on the left.
fn behind_a_name(op: &ast::BinaryOp, right: &ast::Expr) -> ast::Expr {
    let left = Box::new(ExprData::variable("x").into());
    ExprData::Binary(op.clone(), left, Box::new(right.clone())).into()
}

/// What the Rust module writes in TIGHT.
fn tight_text(expr: &ast::Expr) -> String {
    print::expr(expr, &settings::tight())
}

#[cfg(test)]
mod tests {
    use super::*;
    use crate::tables;
    use glsl_lang::ast::{
        ArraySpecifierData, ArraySpecifierDimensionData, AssignmentOpData, FunIdentifierData, LayoutQualifierData,
        LayoutQualifierSpecData, StorageQualifierData, StructFieldSpecifierData, StructSpecifierData,
        TypeQualifierData, TypeQualifierSpecData, TypeSpecifierData, TypeSpecifierNonArrayData,
    };
    use std::collections::BTreeSet;

    fn name() -> ast::Expr {
        ExprData::variable("a").into()
    }

    fn int(value: i32) -> ast::Expr {
        ExprData::IntConst(value).into()
    }

    fn unary(op: UnaryOpData, e: ast::Expr) -> ast::Expr {
        ExprData::Unary(op.into(), Box::new(e)).into()
    }

    fn minus(e: ast::Expr) -> ast::Expr {
        unary(UnaryOpData::Minus, e)
    }

    fn plus(e: ast::Expr) -> ast::Expr {
        unary(UnaryOpData::Add, e)
    }

    fn binary(op: BinaryOpData, left: ast::Expr, right: ast::Expr) -> ast::Expr {
        ExprData::Binary(op.into(), Box::new(left), Box::new(right)).into()
    }

    fn less(right: ast::Expr) -> ast::Expr {
        binary(BinaryOpData::Sub, name(), right)
    }

    fn more(right: ast::Expr) -> ast::Expr {
        binary(BinaryOpData::Add, name(), right)
    }

    fn dot(e: ast::Expr) -> ast::Expr {
        ExprData::Dot(Box::new(e), ast::IdentifierData("x".into()).into()).into()
    }

    fn call(callee: ast::Expr) -> ast::Expr {
        ExprData::FunCall(FunIdentifierData::Expr(Box::new(callee)).into(), Vec::new()).into()
    }

    fn call_of(ty: TypeSpecifierData) -> ast::Expr {
        ExprData::FunCall(FunIdentifierData::TypeSpecifier(Box::new(ty.into())).into(), Vec::new()).into()
    }

    /// Postfixes and calls that begin with the text of this expression: they stand bare behind every operator. A constant is
    /// bare in all of them, other expressions as callees alone.
    fn postfixes(first: &ast::Expr) -> Vec<ast::Expr> {
        let called = || Box::new(call(first.clone()));
        let bracket = ExprData::Bracket(called(), Box::new(name()));
        let posts = [ExprData::PostInc(Box::new(first.clone())), ExprData::PostDec(Box::new(first.clone()))];
        let posts = posts.into_iter().filter(|_| matches!(&**first, ExprData::IntConst(_)));
        [*called(), dot(*called()), bracket.into()].into_iter().chain(posts.map(Into::into)).collect()
    }

    /// An expression is joined in these ways alone.
    fn says(expr: &ast::Expr, joints: &[Joint]) {
        let text = tight_text(expr);
        assert_eq!(is_joined(expr), !joints.is_empty(), "{text}");
        let found: BTreeSet<Joint> = tokens::expr(expr).joints().collect();
        assert_eq!(found, joints.iter().copied().collect(), "{text}");
    }

    #[test]
    fn binary_joins_the_same_sign_on_the_right() {
        for right in [minus(name()), unary(UnaryOpData::Dec, name()), int(-1), int(i32::MIN)] {
            says(&less(right.clone()), &[Joint::Binary]);
            says(&more(right), &[]);
        }
        for right in [plus(name()), unary(UnaryOpData::Inc, name())] {
            says(&more(right.clone()), &[Joint::Binary]);
            says(&less(right), &[]);
        }
        // The sign is that of the operand's first operand; a callee is bare at any strength.
        says(&less(binary(BinaryOpData::Mult, minus(name()), name())), &[Joint::Binary]);
        for right in postfixes(&minus(name())).into_iter().chain(postfixes(&int(-1))) {
            says(&less(right), &[Joint::Binary]);
        }
    }

    #[test]
    fn binary_joins_nothing_else() {
        says(&name(), &[]);
        says(&more(minus(name())), &[]);
        says(&binary(BinaryOpData::Mult, name(), minus(name())), &[]);
        says(&binary(BinaryOpData::Sub, minus(name()), name()), &[]);
        says(&binary(BinaryOpData::Sub, ExprData::PostDec(Box::new(name())).into(), name()), &[]);
        // Of equal strength, or weaker, so bracketed: `a-(-a-a)`.
        says(&less(binary(BinaryOpData::Sub, minus(name()), name())), &[]);
        says(&less(binary(BinaryOpData::Lt, minus(name()), name())), &[]);
    }

    #[test]
    fn unary_joins_the_same_sign() {
        for operand in [unary(UnaryOpData::Dec, name()), int(-1), int(i32::MIN)] {
            says(&minus(operand.clone()), &[Joint::Unary]);
            says(&plus(operand), &[]);
        }
        says(&plus(unary(UnaryOpData::Inc, name())), &[Joint::Unary]);
        says(&minus(unary(UnaryOpData::Inc, name())), &[]);
        // Through callees of any strength and first operands: `--a()`, `--a().x`, `--1++`.
        for first in [minus(name()), binary(BinaryOpData::Or, minus(name()), name()), int(-1)] {
            for operand in postfixes(&first) {
                says(&minus(operand.clone()), &[Joint::Unary]);
                says(&plus(operand), &[]);
            }
        }
    }

    #[test]
    fn unary_joins_through_callees_of_any_strength() {
        let (boxed, first) = (|| Box::new(name()), || Box::new(minus(name())));
        let callees = [
            ExprData::Ternary(first(), boxed(), boxed()),
            ExprData::Assignment(first(), AssignmentOpData::Equal.into(), boxed()),
            ExprData::Comma(first(), boxed()),
        ];
        for callee in callees {
            says(&minus(call(callee.clone().into())), &[Joint::Unary]);
            says(&less(call(callee.clone().into())), &[Joint::Binary]);
            // Outside a callee they are bracketed.
            says(&minus(callee.into()), &[]);
        }
    }

    /// A minus or plus over itself is bracketed; with a positive constant or a name nothing meets.
    #[test]
    fn unary_joins_nothing_else() {
        says(&minus(minus(name())), &[]);
        says(&plus(plus(name())), &[]);
        says(&minus(plus(name())), &[]);
        says(&plus(minus(plus(name()))), &[]);
        let constants = [
            int(0),
            int(1),
            ExprData::UIntConst(u32::MAX).into(),
            ExprData::BoolConst(true).into(),
            ExprData::FloatConst(1.0).into(),
            ExprData::DoubleConst(1.0).into(),
        ];
        for operand in constants.into_iter().chain([name(), ExprData::PostDec(Box::new(name())).into()]) {
            says(&minus(operand.clone()), &[]);
            says(&plus(operand), &[]);
        }
        // Weaker than a unary operator, so bracketed: `-(-a-a)`.
        says(&minus(binary(BinaryOpData::Sub, minus(name()), name())), &[]);
    }

    /// Of the unary operators only plus and minus join: `--` over `-a` is `---a`, and joins nothing.
    #[test]
    fn other_unary_operators_join_nothing() {
        for op in tables::UNARY.iter().filter(|op| ![UnaryOpData::Add, UnaryOpData::Minus].contains(op)) {
            for operand in tables::UNARY.iter().map(|inner| unary(inner.clone(), name())).chain([int(-1)]) {
                says(&unary(op.clone(), operand), &[]);
            }
        }
    }

    #[test]
    fn dot_joins_an_int_alone() {
        for value in [0, 1, -1, i32::MAX, i32::MIN] {
            says(&dot(int(value)), &[Joint::Dot]);
        }
        let others = [
            ExprData::UIntConst(1),
            ExprData::BoolConst(true),
            ExprData::FloatConst(1.0),
            ExprData::FloatConst(1.5),
            ExprData::DoubleConst(1.0),
            ExprData::PostInc(Box::new(int(1))),
            ExprData::Bracket(Box::new(name()), Box::new(int(1))),
        ];
        for operand in others.map(Into::into).into_iter().chain([name(), dot(name()), minus(int(1)), call(int(1))]) {
            says(&dot(operand), &[]);
        }
    }

    #[test]
    fn sorts_are_told_apart() {
        says(&less(minus(unary(UnaryOpData::Dec, dot(int(-1))))), &JOINTS);
        let are_dots = |expr: &ast::Expr| tokens::expr(expr).are_joined_only_by(Joint::Dot);
        assert!(are_dots(&dot(int(1))));
        assert!(!are_dots(&minus(dot(int(-1)))));
        assert!(!are_dots(&name()));
    }

    /// An expression for each sort.
    fn joined() -> [ast::Expr; 3] {
        [less(minus(name())), minus(int(-1)), dot(int(1))]
    }

    #[test]
    fn every_part_is_looked_at() {
        for (part, joint) in joined().into_iter().zip(JOINTS) {
            let (boxed, other) = (|| Box::new(part.clone()), || Box::new(name()));
            let argument = ExprData::FunCall(FunIdentifierData::ident("f").into(), vec![name(), part.clone()]);
            let assignment = |target, value| ExprData::Assignment(target, AssignmentOpData::Add.into(), value);
            let wholes = [
                argument,
                assignment(boxed(), other()),
                assignment(other(), boxed()),
                ExprData::Binary(BinaryOpData::Or.into(), boxed(), other()),
                ExprData::Bracket(boxed(), other()),
                ExprData::Bracket(other(), boxed()),
                ExprData::Comma(boxed(), other()),
                ExprData::Comma(other(), boxed()),
                ExprData::PostDec(boxed()),
                ExprData::PostInc(boxed()),
                ExprData::Ternary(boxed(), other(), other()),
                ExprData::Ternary(other(), boxed(), other()),
                ExprData::Ternary(other(), other(), boxed()),
                ExprData::Unary(UnaryOpData::Not.into(), boxed()),
            ];
            for whole in wholes.map(Into::into).into_iter().chain([call(part.clone()), dot(call(part))]) {
                says(&whole, &[joint]);
            }
        }
    }

    /// `int[e]`.
    fn int_of(e: ast::Expr) -> TypeSpecifierData {
        let sized = ArraySpecifierDimensionData::ExplicitlySized(Box::new(e));
        let array_specifier = Some(ArraySpecifierData { dimensions: vec![sized.into()] }.into());
        TypeSpecifierData { ty: TypeSpecifierNonArrayData::Int.into(), array_specifier }
    }

    /// A struct whose one field has this qualifier, type and array behind its name.
    fn struct_of(
        qualifier: Option<TypeQualifierSpecData>,
        ty: TypeSpecifierData,
        array_spec: Option<ast::ArraySpecifier>,
    ) -> TypeSpecifierData {
        let qualifier = qualifier.map(|spec| TypeQualifierData { qualifiers: vec![spec.into()] }.into());
        let ident = ast::IdentifierData("a".into()).into();
        let identifiers = vec![ast::ArrayedIdentifierData { ident, array_spec }.into()];
        let field = StructFieldSpecifierData { qualifier, ty: ty.into(), identifiers };
        let whole = StructSpecifierData { name: None, fields: vec![field.into()] };
        TypeSpecifierNonArrayData::Struct(whole.into()).into()
    }

    #[test]
    fn types_of_callees_are_looked_at() {
        for (part, joint) in joined().into_iter().zip(JOINTS) {
            let plain = || TypeSpecifierData::from(TypeSpecifierNonArrayData::Int);
            let layout = LayoutQualifierSpecData::Identifier(
                ast::IdentifierData("a".into()).into(),
                Some(Box::new(part.clone())),
            );
            let layout = TypeQualifierSpecData::Layout(LayoutQualifierData { ids: vec![layout.into()] }.into());
            let subroutine = StorageQualifierData::Subroutine(vec![int_of(part.clone()).into()]);
            let subroutine = TypeQualifierSpecData::Storage(subroutine.into());
            let wholes = [
                int_of(part.clone()),
                struct_of(None, int_of(part.clone()), None),
                struct_of(None, plain(), int_of(part).array_specifier),
                struct_of(Some(layout), plain(), None),
                struct_of(Some(subroutine), plain(), None),
            ];
            for whole in wholes {
                says(&call_of(whole), &[joint]);
            }
        }
    }
}
