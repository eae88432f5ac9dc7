//! Statements. Collapse needs the setting, exactly one statement, and no function body (01, "Rules of the text").

use super::Writer;
use glsl_lang::ast::{
    self, CaseLabelData, ConditionData, ForInitStatementData, IterationStatementData, JumpStatementData,
    SelectionRestStatementData, StatementData,
};

impl Writer {
    fn statement(&mut self, statement: &ast::Statement) {
        match &**statement {
            StatementData::Declaration(declaration) => self.declaration(declaration),
            StatementData::Expression(statement) => {
                self.each(&statement.0, Self::expr);
                self.put(";");
            }
            StatementData::Selection(selection) => self.selection(selection),
            StatementData::Switch(switch) => {
                self.put("switch");
                self.enclosed(["(", ")"], |writer| writer.expr(&switch.head));
                self.enclosed(["{", "}"], |writer| writer.each(&switch.body, Self::statement));
            }
            StatementData::CaseLabel(label) => self.case_label(label),
            StatementData::Iteration(iteration) => self.iteration(iteration),
            StatementData::Jump(jump) => self.jump(jump),
            StatementData::Compound(compound) if self.collapse && compound.statement_list.len() == 1 => {
                self.each(&compound.statement_list, Self::statement);
            }
            StatementData::Compound(compound) => self.body(compound),
        }
    }

    /// Writes a compound in braces, as a function's body always is.
    pub(super) fn body(&mut self, compound: &ast::CompoundStatement) {
        self.enclosed(["{", "}"], |writer| writer.each(&compound.statement_list, Self::statement));
    }

    fn selection(&mut self, selection: &ast::SelectionStatement) {
        self.put("if");
        self.enclosed(["(", ")"], |writer| writer.expr(&selection.cond));
        match &*selection.rest {
            SelectionRestStatementData::Statement(then) => self.statement(then),
            SelectionRestStatementData::Else(then, other) => {
                self.statement(then);
                self.put("else");
                self.statement(other);
            }
        }
    }

    fn case_label(&mut self, label: &ast::CaseLabel) {
        match &**label {
            CaseLabelData::Case(e) => {
                self.put("case");
                self.expr(e);
            }
            CaseLabelData::Def => self.put("default"),
        }
        self.put(":");
    }

    fn iteration(&mut self, iteration: &ast::IterationStatement) {
        match &**iteration {
            IterationStatementData::While(condition, body) => {
                self.put("while");
                self.enclosed(["(", ")"], |writer| writer.condition(condition));
                self.statement(body);
            }
            IterationStatementData::DoWhile(body, condition) => {
                self.put("do");
                self.statement(body);
                self.put("while");
                self.enclosed(["(", ")"], |writer| writer.expr(condition));
                self.put(";");
            }
            IterationStatementData::For(start, rest, body) => {
                self.put("for");
                self.enclosed(["(", ")"], |writer| {
                    writer.for_start(start);
                    writer.each(&rest.condition, Self::condition);
                    writer.put(";");
                    writer.each(rest.post_expr.as_deref(), Self::expr);
                });
                self.statement(body);
            }
        }
    }

    fn condition(&mut self, condition: &ast::Condition) {
        match &**condition {
            ConditionData::Expr(e) => self.expr(e),
            ConditionData::Assignment(ty, name, initializer) => {
                self.full_type(ty);
                self.put(&name.0);
                self.initialized(initializer);
            }
        }
    }

    /// A declaration ends with the semicolon that an expression, or nothing, needs behind it.
    fn for_start(&mut self, start: &ast::ForInitStatement) {
        match &**start {
            ForInitStatementData::Declaration(declaration) => self.declaration(declaration),
            ForInitStatementData::Expression(e) => {
                self.each(e, Self::expr);
                self.put(";");
            }
        }
    }

    fn jump(&mut self, jump: &ast::JumpStatement) {
        match &**jump {
            JumpStatementData::Continue => self.put("continue"),
            JumpStatementData::Break => self.put("break"),
            JumpStatementData::Discard => self.put("discard"),
            JumpStatementData::Return(e) => {
                self.put("return");
                self.each(e.as_deref(), Self::expr);
            }
        }
        self.put(";");
    }
}
