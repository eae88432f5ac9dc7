//! Declarations, and what stands directly in a unit: kinds 40..47 and 81.

use super::{Opened, Place, Read, Reader};
use crate::refusal::Reason;
use glsl_lang::ast::{
    self, BlockData, DeclarationData, ExternalDeclarationData, FunctionDefinitionData,
    FunctionParameterDeclarationData, FunctionParameterDeclaratorData, FunctionPrototypeData, InitDeclaratorListData,
    InitializerData, SingleDeclarationData, SingleDeclarationNoTypeData,
};

impl Reader<'_> {
    /// A declaration or a function: kinds 47 and 81.
    pub(super) fn external_declaration(&mut self) -> Read<ast::ExternalDeclaration> {
        self.node(&Place::of(&[47..=47, 81..=81]), |reader, r| {
            let external = if r.kind() == 81 {
                let (prototype, statement) = (reader.prototype()?, reader.compound()?);
                ExternalDeclarationData::FunctionDefinition(FunctionDefinitionData { prototype, statement }.into())
            } else {
                ExternalDeclarationData::Declaration(reader.declaration_of(r)?)
            };
            Ok(external.into())
        })
    }

    /// A declaration: kind 47.
    pub(super) fn declaration(&mut self) -> Read<ast::Declaration> {
        self.node(&Place::of(&[47..=47]), Self::declaration_of)
    }

    /// The declaration of a record 47 and its children.
    pub(super) fn declaration_of(&mut self, r: Opened) -> Read<ast::Declaration> {
        let declaration = match r.variant() {
            0 => DeclarationData::FunctionPrototype(self.prototype()?),
            1 => DeclarationData::InitDeclaratorList(self.declarator_list()?),
            2 => DeclarationData::Precision(self.precision()?, self.type_specifier()?),
            3 => DeclarationData::Block(self.block()?),
            4 => DeclarationData::Invariant(r.identifier()),
            5 => DeclarationData::TypeOnly(self.qualifier()?),
            _ => return Err(r.refused(Reason::Variant)),
        };
        Ok(declaration.into())
    }

    /// A prototype, which declares its name: kind 40.
    fn prototype(&mut self) -> Read<ast::FunctionPrototype> {
        self.node(&Place::of(&[40..=40]).declaring(40), |reader, r| {
            let ty = reader.full_type()?;
            let parameters = reader.several(r.record.count, Self::parameter)?;
            Ok(FunctionPrototypeData { ty, name: r.identifier(), parameters }.into())
        })
    }

    /// A parameter: kind 41.
    fn parameter(&mut self) -> Read<ast::FunctionParameterDeclaration> {
        self.node(&Place::of(&[41..=41]), |reader, r| {
            let qualifier = reader.when(r.has(2), Self::qualifier)?;
            let ty = reader.type_specifier()?;
            let parameter = match reader.when(r.has(1), Self::parameter_name)? {
                Some(ident) => {
                    let declarator = FunctionParameterDeclaratorData { ty, ident };
                    FunctionParameterDeclarationData::Named(qualifier, declarator.into())
                }
                None => FunctionParameterDeclarationData::Unnamed(qualifier, ty),
            };
            Ok(parameter.into())
        })
    }

    /// A declarator list: kind 42.
    fn declarator_list(&mut self) -> Read<ast::InitDeclaratorList> {
        self.node(&Place::of(&[42..=42]), |reader, r| {
            let head = reader.first_declarator()?;
            let tail = reader.several(r.record.count, Self::next_declarator)?;
            Ok(InitDeclaratorListData { head, tail }.into())
        })
    }

    /// The first declarator: kind 43.
    fn first_declarator(&mut self) -> Read<ast::SingleDeclaration> {
        self.node(&Place::of(&[43..=43]), |reader, r| {
            let ty = reader.full_type()?;
            let array_specifier = reader.when(r.has(2), Self::array)?;
            let initializer = reader.when(r.has(4), Self::initializer)?;
            let name = r.has(1).then(|| r.identifier());
            Ok(SingleDeclarationData { ty, name, array_specifier, initializer }.into())
        })
    }

    /// A next declarator: kind 44.
    fn next_declarator(&mut self) -> Read<ast::SingleDeclarationNoType> {
        self.node(&Place::of(&[44..=44]), |reader, r| {
            let ident = reader.arrayed_identifier()?;
            let initializer = reader.when(r.has(1), Self::initializer)?;
            Ok(SingleDeclarationNoTypeData { ident, initializer }.into())
        })
    }

    /// An initializer: kind 45.
    pub(super) fn initializer(&mut self) -> Read<ast::Initializer> {
        self.node(&Place::of(&[45..=45]), |reader, r| {
            let initializer = if r.has(1) {
                InitializerData::List(reader.several(r.record.count, Self::initializer)?)
            } else {
                InitializerData::Simple(reader.boxed_expr()?)
            };
            Ok(initializer.into())
        })
    }

    /// A block: kind 46.
    fn block(&mut self) -> Read<ast::Block> {
        self.node(&Place::of(&[46..=46]), |reader, r| {
            let qualifier = reader.qualifier()?;
            let fields = reader.several(r.record.count, Self::field)?;
            let identifier = reader.when(r.has(1), Self::arrayed_identifier)?;
            Ok(BlockData { qualifier, name: r.identifier(), fields, identifier }.into())
        })
    }
}
