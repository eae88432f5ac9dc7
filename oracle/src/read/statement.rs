//! Statements: kinds 60..70, and 47 as a statement.

use super::{Opened, Place, Read, Reader};
use crate::refusal::Reason;
use glsl_lang::ast::{
    self, CaseLabelData, CompoundStatementData, ConditionData, ExprStatementData, ForInitStatementData,
    ForRestStatementData, IterationStatementData, JumpStatementData, SelectionRestStatementData,
    SelectionStatementData, StatementData, SwitchStatementData,
};

const STATEMENT: Place = Place::of(&[47..=47, 60..=68]);

impl Reader<'_> {
    /// A statement.
    fn statement(&mut self) -> Read<ast::Statement> {
        self.node(&STATEMENT, Self::statement_of)
    }

    /// A statement in a box.
    fn boxed_statement(&mut self) -> Read<Box<ast::Statement>> {
        self.statement().map(Box::new)
    }

    /// The statement of a record and its children.
    fn statement_of(&mut self, r: Opened) -> Read<ast::Statement> {
        let statement = match r.kind() {
            47 => StatementData::Declaration(self.declaration_of(r)?),
            60 => StatementData::Compound(self.compound_of(r)?),
            61 => StatementData::Expression(ExprStatementData(self.when(r.has(1), Self::expr)?).into()),
            62 => StatementData::Selection(self.selection_of(&r)?),
            63 => {
                let (head, body) = (self.boxed_expr()?, self.several(r.record.count, Self::statement)?);
                StatementData::Switch(SwitchStatementData { head, body }.into())
            }
            64 if r.has(1) => StatementData::CaseLabel(CaseLabelData::Case(self.boxed_expr()?).into()),
            64 => StatementData::CaseLabel(CaseLabelData::Def.into()),
            65..=67 => StatementData::Iteration(self.iteration_of(&r)?.into()),
            68 => StatementData::Jump(self.jump_of(&r)?.into()),
            _ => return Err(r.refused(Reason::Kind)),
        };
        Ok(statement.into())
    }

    /// A compound that is a function's body: kind 60.
    pub(super) fn compound(&mut self) -> Read<ast::CompoundStatement> {
        self.node(&Place::of(&[60..=60]), Self::compound_of)
    }

    /// The compound of a record 60 and its children.
    fn compound_of(&mut self, r: Opened) -> Read<ast::CompoundStatement> {
        let statement_list = self.several(r.record.count, Self::statement)?;
        Ok(CompoundStatementData { statement_list }.into())
    }

    /// The `if` of a record 62 and its children.
    fn selection_of(&mut self, r: &Opened) -> Read<ast::SelectionStatement> {
        let (cond, then) = (self.boxed_expr()?, self.boxed_statement()?);
        let rest = match self.when(r.has(1), Self::boxed_statement)? {
            Some(other) => SelectionRestStatementData::Else(then, other),
            None => SelectionRestStatementData::Statement(then),
        };
        Ok(SelectionStatementData { cond, rest: rest.into() }.into())
    }

    /// The loop of a record 65..67 and its children.
    fn iteration_of(&mut self, r: &Opened) -> Read<IterationStatementData> {
        match r.kind() {
            65 => Ok(IterationStatementData::While(self.condition()?, self.boxed_statement()?)),
            66 => Ok(IterationStatementData::DoWhile(self.boxed_statement()?, self.boxed_expr()?)),
            67 => {
                let start = self.for_start()?;
                let condition = self.when(r.has(1), Self::condition)?;
                let post_expr = self.when(r.has(2), Self::boxed_expr)?;
                let rest = ForRestStatementData { condition, post_expr };
                Ok(IterationStatementData::For(start, rest.into(), self.boxed_statement()?))
            }
            _ => Err(r.refused(Reason::Kind)),
        }
    }

    /// The jump of a record 68 and its child.
    fn jump_of(&mut self, r: &Opened) -> Read<JumpStatementData> {
        match r.variant() {
            0 => Ok(JumpStatementData::Continue),
            1 => Ok(JumpStatementData::Break),
            2 => Ok(JumpStatementData::Discard),
            3 => Ok(JumpStatementData::Return(None)),
            4 => Ok(JumpStatementData::Return(Some(self.boxed_expr()?))),
            _ => Err(r.refused(Reason::Variant)),
        }
    }

    /// A condition: kind 69.
    fn condition(&mut self) -> Read<ast::Condition> {
        self.node(&Place::of(&[69..=69]), |reader, r| {
            let condition = if r.has(1) {
                let (ty, initializer) = (Box::new(reader.full_type()?), reader.initializer()?);
                ConditionData::Assignment(ty, r.identifier(), initializer)
            } else {
                ConditionData::Expr(reader.expr()?)
            };
            Ok(condition.into())
        })
    }

    /// The start of a `for`: kind 70.
    fn for_start(&mut self) -> Read<ast::ForInitStatement> {
        self.node(&Place::of(&[70..=70]), |reader, r| {
            let start = match r.variant() {
                2 => ForInitStatementData::Declaration(Box::new(reader.declaration()?)),
                variant => ForInitStatementData::Expression(reader.when(variant == 1, Self::expr)?),
            };
            Ok(start.into())
        })
    }
}
