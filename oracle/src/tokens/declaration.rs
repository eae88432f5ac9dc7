//! Declarations, and what stands directly in a unit.

use super::Writer;
use glsl_lang::ast::{
    self, DeclarationData, ExternalDeclarationData, FunctionParameterDeclarationData, InitializerData,
};

impl Writer {
    /// Writes a declaration or a function.
    pub(super) fn external_declaration(&mut self, external: &ast::ExternalDeclaration) {
        match &**external {
            ExternalDeclarationData::Declaration(declaration) => self.declaration(declaration),
            ExternalDeclarationData::FunctionDefinition(function) => {
                self.prototype(&function.prototype);
                self.body(&function.statement);
            }
            ExternalDeclarationData::Preprocessor(_) => unreachable!("no record is a directive"),
        }
    }

    pub(super) fn declaration(&mut self, declaration: &ast::Declaration) {
        match &**declaration {
            DeclarationData::FunctionPrototype(prototype) => self.prototype(prototype),
            DeclarationData::InitDeclaratorList(list) => self.declarator_list(list),
            DeclarationData::Precision(precision, ty) => {
                self.put("precision");
                self.precision(precision);
                self.type_specifier(ty);
            }
            DeclarationData::Block(block) => self.block(block),
            DeclarationData::Invariant(name) => {
                self.put("invariant");
                self.put(&name.0);
            }
            DeclarationData::TypeOnly(qualifier) => self.qualifier(qualifier),
        }
        self.put(";");
    }

    fn prototype(&mut self, prototype: &ast::FunctionPrototype) {
        self.full_type(&prototype.ty);
        self.put(&prototype.name.0);
        self.enclosed(["(", ")"], |writer| writer.list(&prototype.parameters, Self::parameter));
    }

    fn parameter(&mut self, parameter: &ast::FunctionParameterDeclaration) {
        match &**parameter {
            FunctionParameterDeclarationData::Named(qualifier, declarator) => {
                self.each(qualifier, Self::qualifier);
                self.type_specifier(&declarator.ty);
                self.arrayed_identifier(&declarator.ident);
            }
            FunctionParameterDeclarationData::Unnamed(qualifier, ty) => {
                self.each(qualifier, Self::qualifier);
                self.type_specifier(ty);
            }
        }
    }

    fn declarator_list(&mut self, list: &ast::InitDeclaratorList) {
        let first = &list.head;
        self.full_type(&first.ty);
        if let Some(name) = &first.name {
            self.put(&name.0);
        }
        self.array(&first.array_specifier);
        self.each(&first.initializer, Self::initialized);
        for next in &list.tail {
            self.put(",");
            self.arrayed_identifier(&next.ident);
            self.each(&next.initializer, Self::initialized);
        }
    }

    /// Writes an initializer and the `=` before it.
    pub(super) fn initialized(&mut self, initializer: &ast::Initializer) {
        self.put("=");
        self.initializer(initializer);
    }

    fn initializer(&mut self, initializer: &ast::Initializer) {
        match &**initializer {
            InitializerData::Simple(e) => self.expr(e),
            InitializerData::List(list) => {
                self.enclosed(["{", "}"], |writer| writer.list(list, Self::initializer));
            }
        }
    }

    fn block(&mut self, block: &ast::Block) {
        self.qualifier(&block.qualifier);
        self.put(&block.name.0);
        self.fields(&block.fields);
        self.each(&block.identifier, Self::arrayed_identifier);
    }
}
