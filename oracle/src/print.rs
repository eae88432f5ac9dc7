//! The texts that the Rust module (000) writes, as they are; [`crate::mended`] makes the judge's of them.

use crate::read::Tree;
use glsl_lang::ast;
use glsl_lang::transpiler::glsl::{show_expr, show_translation_unit, FormattingSettings, FormattingState};

/// Why the printers below cannot fail: 000 hands on the writer's errors and has none of its own.
const NEVER_FAILS: &str = "a String takes every text";

/// The text of either, from a fresh state.
pub fn tree(tree: &Tree, settings: &FormattingSettings) -> String {
    match tree {
        Tree::Unit(tree) => unit(tree, settings),
        Tree::Expr(tree) => expr(tree, settings),
    }
}

/// The text of a unit, from a fresh state.
pub fn unit(unit: &ast::TranslationUnit, settings: &FormattingSettings) -> String {
    let mut text = String::new();
    show_translation_unit(&mut text, unit, FormattingState::from(settings)).expect(NEVER_FAILS);
    text
}

/// The text of an expression, from a fresh state.
pub fn expr(expr: &ast::Expr, settings: &FormattingSettings) -> String {
    let mut text = String::new();
    show_expr(&mut text, expr, &mut FormattingState::from(settings)).expect(NEVER_FAILS);
    text
}
