//! Expressions: kinds 1..16.

use super::{Opened, Place, Read, Reader};
use crate::refusal::Reason;
use crate::tables;
use glsl_lang::ast::{self, ExprData, FunIdentifierData};
use std::fmt::Display;
use std::str::FromStr;

const EXPR: Place = Place::of(&[1..=16]);
const CALLEE: Place = Place::of(&[1..=16, 20..=20]);

impl Reader<'_> {
    /// An expression.
    pub(super) fn expr(&mut self) -> Read<ast::Expr> {
        self.node(&EXPR, Self::expr_of)
    }

    /// An expression in a box.
    pub(super) fn boxed_expr(&mut self) -> Read<Box<ast::Expr>> {
        self.expr().map(Box::new)
    }

    /// The expression of a record and its children.
    fn expr_of(&mut self, r: Opened) -> Read<ast::Expr> {
        let expr = match r.kind() {
            1..=6 => self.atom(r)?,
            7 => ExprData::Unary(r.entry(&tables::UNARY, 0)?.into(), self.boxed_expr()?),
            8 => ExprData::Binary(r.entry(&tables::BINARY, 0)?.into(), self.boxed_expr()?, self.boxed_expr()?),
            9 => ExprData::Ternary(self.boxed_expr()?, self.boxed_expr()?, self.boxed_expr()?),
            10 => {
                let op = r.entry(&tables::ASSIGNMENT, 0)?.into();
                ExprData::Assignment(self.boxed_expr()?, op, self.boxed_expr()?)
            }
            11 => ExprData::Bracket(self.boxed_expr()?, self.boxed_expr()?),
            12 => ExprData::FunCall(self.callee()?, self.several(r.record.count, Self::expr)?),
            13 => ExprData::Dot(self.boxed_expr()?, r.identifier()),
            14 => ExprData::PostInc(self.boxed_expr()?),
            15 => ExprData::PostDec(self.boxed_expr()?),
            16 => ExprData::Comma(self.boxed_expr()?, self.boxed_expr()?),
            _ => return Err(r.refused(Reason::Kind)),
        };
        Ok(expr.into())
    }

    /// A variable or a constant: kinds 1..6, without children.
    fn atom(&mut self, r: Opened) -> Read<ExprData> {
        Ok(match r.kind() {
            1 => ExprData::Variable(r.identifier()),
            2 => ExprData::IntConst(r.record.a.cast_signed()),
            3 => ExprData::UIntConst(r.record.a),
            4 => ExprData::BoolConst(r.has(1)),
            5 => ExprData::FloatConst(self.float(&r)?),
            6 => ExprData::DoubleConst(self.float(&r)?),
            _ => return Err(r.refused(Reason::Kind)),
        })
    }

    /// The value of a float text. Where Rust's Display of it is another text, the reader remembers that.
    fn float<T: FromStr + Display>(&mut self, r: &Opened) -> Read<T> {
        let value: T = r.text.parse().map_err(|_| r.refused(Reason::Form))?;
        if value.to_string() != r.text {
            self.unlike_display.get_or_insert(r.index);
        }
        Ok(value)
    }

    /// A callee: a type or an expression.
    fn callee(&mut self) -> Read<ast::FunIdentifier> {
        self.node(&CALLEE, |reader, r| {
            let callee = if r.kind() == 20 {
                FunIdentifierData::TypeSpecifier(Box::new(reader.type_of(r)?))
            } else {
                FunIdentifierData::Expr(Box::new(reader.expr_of(r)?))
            };
            Ok(callee.into())
        })
    }
}
