//! Expressions: where brackets go is document 01's ("Rules of the text").

use super::Writer;
use crate::joined::joint_at;
use glsl_lang::ast::{self, AssignmentOpData, BinaryOpData, ExprData, FunIdentifierData, UnaryOpData};

/// How the strength of an operand must stand to that of what it is under, for it to be bare.
type IsBare = fn(&u8, &u8) -> bool;
const AT_MOST: IsBare = u8::le;
const BELOW: IsBare = u8::lt;

impl Writer {
    /// Writes an expression.
    pub(super) fn expr(&mut self, expr: &ast::Expr) {
        let strength = strength(expr);
        match &**expr {
            ExprData::Unary(op, e) => {
                self.put(unary_sign(op));
                self.put_joined(joint_at(expr), |writer| writer.operand(e, is_bare_below(op, e, strength)));
            }
            ExprData::Binary(op, left, right) => {
                self.ranked(left, strength, AT_MOST);
                self.put(binary_sign(op));
                self.put_joined(joint_at(expr), |writer| writer.ranked(right, strength, BELOW));
            }
            ExprData::Ternary(condition, yes, no) => {
                self.ranked(condition, strength, BELOW);
                self.put("?");
                self.expr(yes);
                self.put(":");
                self.ranked(no, strength, AT_MOST);
            }
            ExprData::Assignment(target, op, value) => {
                self.ranked(target, strength, BELOW);
                self.put(assignment_sign(op));
                self.ranked(value, strength, AT_MOST);
            }
            ExprData::Comma(left, right) => {
                self.ranked(left, strength, AT_MOST);
                self.put(",");
                self.ranked(right, strength, BELOW);
            }
            _ => self.postfix(expr),
        }
    }

    /// Writes a postfix expression, a call, or what has no operand.
    fn postfix(&mut self, expr: &ast::Expr) {
        let strength = strength(expr);
        match &**expr {
            ExprData::Bracket(e, index) => {
                self.ranked(e, strength, AT_MOST);
                self.enclosed(["[", "]"], |writer| writer.expr(index));
            }
            ExprData::Dot(e, name) => {
                self.ranked(e, strength, AT_MOST);
                self.put_joined(joint_at(expr), |writer| writer.put("."));
                self.put(&name.0);
            }
            ExprData::PostInc(e) => self.post(e, strength, "++"),
            ExprData::PostDec(e) => self.post(e, strength, "--"),
            ExprData::FunCall(callee, arguments) => {
                // Callees and arguments are always bare.
                match &**callee {
                    FunIdentifierData::Expr(e) => self.expr(e),
                    FunIdentifierData::TypeSpecifier(ty) => self.type_specifier(ty),
                }
                self.enclosed(["(", ")"], |writer| writer.list(arguments, Self::expr));
            }
            other => self.atom(other),
        }
    }

    /// Writes a name or a constant.
    fn atom(&mut self, expr: &ExprData) {
        match expr {
            ExprData::Variable(name) => self.put(&name.0),
            ExprData::IntConst(value) => {
                if *value < 0 {
                    self.put("-");
                }
                self.put(&value.unsigned_abs().to_string());
            }
            ExprData::UIntConst(value) => self.put(&format!("{value}u")),
            ExprData::BoolConst(value) => self.put(if *value { "true" } else { "false" }),
            ExprData::FloatConst(value) => self.put(&with_point(value.to_string())),
            ExprData::DoubleConst(value) => self.put(&(with_point(value.to_string()) + "lf")),
            _ => unreachable!("all others have operands"),
        }
    }

    /// Writes an operand, in brackets unless it is bare.
    fn operand(&mut self, e: &ast::Expr, is_bare: bool) {
        if is_bare {
            self.expr(e);
        } else {
            self.enclosed(["(", ")"], |writer| writer.expr(e));
        }
    }

    /// Writes an operand that is bare where its strength stands so to that of what it is under.
    fn ranked(&mut self, e: &ast::Expr, above: u8, is_bare: IsBare) {
        self.operand(e, is_bare(&strength(e), &above));
    }

    /// Writes a `++` or `--` behind its operand.
    fn post(&mut self, e: &ast::Expr, above: u8, sign: &str) {
        self.ranked(e, above, BELOW);
        self.put(sign);
    }
}

/// Unary at ≤, but plus over plus and minus over minus are bracketed.
fn is_bare_below(op: &ast::UnaryOp, e: &ast::Expr, above: u8) -> bool {
    let is_sign = matches!(**op, UnaryOpData::Add | UnaryOpData::Minus);
    let repeats = matches!(&**e, ExprData::Unary(inner, _) if inner == op);
    strength(e) <= above && !(is_sign && repeats)
}

/// A float's digits, with a point behind them where none stands.
fn with_point(digits: String) -> String {
    if digits.contains('.') {
        digits
    } else {
        digits + "."
    }
}

/// Binding strengths (01, "Rules of the text"; 4.60, 5.1).
fn strength(expr: &ast::Expr) -> u8 {
    match &**expr {
        ExprData::Bracket(..) | ExprData::FunCall(..) | ExprData::Dot(..) => 2,
        ExprData::PostInc(_) | ExprData::PostDec(_) => 2,
        ExprData::Unary(..) => 3,
        ExprData::Binary(op, ..) => binary_strength(op),
        ExprData::Ternary(..) => 15,
        ExprData::Assignment(..) => 16,
        ExprData::Comma(..) => 17,
        _ => 0,
    }
}

/// Binary operators have 4 to 14.
fn binary_strength(op: &ast::BinaryOp) -> u8 {
    match binary_sign(op) {
        "*" | "/" | "%" => 4,
        "+" | "-" => 5,
        "<<" | ">>" => 6,
        "<" | ">" | "<=" | ">=" => 7,
        "==" | "!=" => 8,
        "&" => 9,
        "^" => 10,
        "|" => 11,
        "&&" => 12,
        "^^" => 13,
        _ => 14,
    }
}

fn unary_sign(op: &ast::UnaryOp) -> &'static str {
    match **op {
        UnaryOpData::Inc => "++",
        UnaryOpData::Dec => "--",
        UnaryOpData::Add => "+",
        UnaryOpData::Minus => "-",
        UnaryOpData::Not => "!",
        UnaryOpData::Complement => "~",
    }
}

fn binary_sign(op: &ast::BinaryOp) -> &'static str {
    match **op {
        BinaryOpData::Or => "||",
        BinaryOpData::Xor => "^^",
        BinaryOpData::And => "&&",
        BinaryOpData::BitOr => "|",
        BinaryOpData::BitXor => "^",
        BinaryOpData::BitAnd => "&",
        BinaryOpData::Equal => "==",
        BinaryOpData::NonEqual => "!=",
        BinaryOpData::Lt => "<",
        BinaryOpData::Gt => ">",
        BinaryOpData::Lte => "<=",
        BinaryOpData::Gte => ">=",
        BinaryOpData::LShift => "<<",
        BinaryOpData::RShift => ">>",
        BinaryOpData::Add => "+",
        BinaryOpData::Sub => "-",
        BinaryOpData::Mult => "*",
        BinaryOpData::Div => "/",
        BinaryOpData::Mod => "%",
    }
}

fn assignment_sign(op: &ast::AssignmentOp) -> &'static str {
    match **op {
        AssignmentOpData::Equal => "=",
        AssignmentOpData::Mult => "*=",
        AssignmentOpData::Div => "/=",
        AssignmentOpData::Mod => "%=",
        AssignmentOpData::Add => "+=",
        AssignmentOpData::Sub => "-=",
        AssignmentOpData::LShift => "<<=",
        AssignmentOpData::RShift => ">>=",
        AssignmentOpData::And => "&=",
        AssignmentOpData::Xor => "^=",
        AssignmentOpData::Or => "|=",
    }
}
