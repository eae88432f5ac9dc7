//! Types, arrays, fields and qualifiers: kinds 20..31.

use super::{Opened, Place, Read, Reader};
use crate::refusal::Reason;
use crate::tables;
use glsl_lang::ast::{
    self, ArraySpecifierData, ArraySpecifierDimensionData, ArrayedIdentifierData, FullySpecifiedTypeData,
    LayoutQualifierData, LayoutQualifierSpecData, StorageQualifierData, StructFieldSpecifierData, StructSpecifierData,
    TypeNameData, TypeQualifierData, TypeQualifierSpecData, TypeSpecifierData, TypeSpecifierNonArrayData,
};

impl Reader<'_> {
    /// A type: kind 20.
    pub(super) fn type_specifier(&mut self) -> Read<ast::TypeSpecifier> {
        self.node(&Place::of(&[20..=20]), Self::type_of)
    }

    /// The type of a record 20 and its children.
    pub(super) fn type_of(&mut self, r: Opened) -> Read<ast::TypeSpecifier> {
        let ty = self.node(&Place::of(&[21..=23]).declaring(23), Self::non_array_of)?;
        let array_specifier = self.when(r.has(1), Self::array)?;
        Ok(TypeSpecifierData { ty, array_specifier }.into())
    }

    /// A type keyword, a type name or a struct, which declares its name: kinds 21..23.
    fn non_array_of(&mut self, r: Opened) -> Read<ast::TypeSpecifierNonArray> {
        let ty = match r.kind() {
            21 => r.entry(&tables::TYPE_KEYWORDS, 0)?,
            22 => TypeSpecifierNonArrayData::TypeName(TypeNameData(r.text).into()),
            23 => {
                let fields = self.several(r.record.count, Self::field)?;
                let name = r.has(1).then(|| TypeNameData(r.text).into());
                TypeSpecifierNonArrayData::Struct(StructSpecifierData { name, fields }.into())
            }
            _ => return Err(r.refused(Reason::Kind)),
        };
        Ok(ty.into())
    }

    /// An array: kind 24.
    pub(super) fn array(&mut self) -> Read<ast::ArraySpecifier> {
        self.node(&Place::of(&[24..=24]), |reader, r| {
            let dimensions = reader.several(r.record.count, Self::dimension)?;
            Ok(ArraySpecifierData { dimensions }.into())
        })
    }

    /// A dimension: kind 25.
    fn dimension(&mut self) -> Read<ast::ArraySpecifierDimension> {
        self.node(&Place::of(&[25..=25]), |reader, r| {
            let dimension = if r.has(1) {
                ArraySpecifierDimensionData::ExplicitlySized(reader.boxed_expr()?)
            } else {
                ArraySpecifierDimensionData::Unsized
            };
            Ok(dimension.into())
        })
    }

    /// A field: kind 26.
    pub(super) fn field(&mut self) -> Read<ast::StructFieldSpecifier> {
        self.node(&Place::of(&[26..=26]), |reader, r| {
            let field = StructFieldSpecifierData {
                qualifier: reader.when(r.has(1), Self::qualifier)?,
                ty: reader.type_specifier()?,
                identifiers: reader.several(r.record.count, Self::arrayed_identifier)?,
            };
            Ok(field.into())
        })
    }

    /// The name of a field, of a next declarator or of a block: kind 27.
    pub(super) fn arrayed_identifier(&mut self) -> Read<ast::ArrayedIdentifier> {
        self.node(&Place::of(&[27..=27]), Self::arrayed_identifier_of)
    }

    /// A parameter's name: kind 27, which declares it.
    pub(super) fn parameter_name(&mut self) -> Read<ast::ArrayedIdentifier> {
        self.node(&Place::of(&[27..=27]).declaring(27), Self::arrayed_identifier_of)
    }

    /// The identifier of a record 27, arrayed or not.
    fn arrayed_identifier_of(&mut self, r: Opened) -> Read<ast::ArrayedIdentifier> {
        let array_spec = self.when(r.has(1), Self::array)?;
        Ok(ArrayedIdentifierData { ident: r.identifier(), array_spec }.into())
    }

    /// A qualifier: kind 28.
    pub(super) fn qualifier(&mut self) -> Read<ast::TypeQualifier> {
        self.node(&Place::of(&[28..=28]), |reader, r| {
            let qualifiers = reader.several(r.record.count, Self::qualifier_spec)?;
            Ok(TypeQualifierData { qualifiers }.into())
        })
    }

    /// One word of a qualifier: kind 29.
    fn qualifier_spec(&mut self) -> Read<ast::TypeQualifierSpec> {
        self.node(&Place::of(&[29..=29]), |reader, r| {
            let spec = match r.variant() {
                0..=16 => TypeQualifierSpecData::Storage(r.entry(&tables::STORAGE, 0)?.into()),
                17 => {
                    let types = reader.several(r.record.count, Self::type_specifier)?;
                    TypeQualifierSpecData::Storage(StorageQualifierData::Subroutine(types).into())
                }
                18 => {
                    let ids = reader.several(r.record.count, Self::layout_id)?;
                    TypeQualifierSpecData::Layout(LayoutQualifierData { ids }.into())
                }
                19..=21 => TypeQualifierSpecData::Precision(r.entry(&tables::PRECISION, 19)?.into()),
                22..=24 => TypeQualifierSpecData::Interpolation(r.entry(&tables::INTERPOLATION, 22)?.into()),
                25 => TypeQualifierSpecData::Invariant,
                26 => TypeQualifierSpecData::Precise,
                _ => return Err(r.refused(Reason::Variant)),
            };
            Ok(spec.into())
        })
    }

    /// The precision that a precision declaration takes: kind 29 of variant 19..21.
    pub(super) fn precision(&mut self) -> Read<ast::PrecisionQualifier> {
        let place = Place::of(&[29..=29]).in_variants(19..=21);
        self.node(&place, |_, r| Ok(r.entry(&tables::PRECISION, 19)?.into()))
    }

    /// A layout id: kind 30.
    fn layout_id(&mut self) -> Read<ast::LayoutQualifierSpec> {
        self.node(&Place::of(&[30..=30]), |reader, r| {
            let id = if r.variant() == 2 {
                LayoutQualifierSpecData::Shared
            } else {
                let value = reader.when(r.variant() == 1, Self::boxed_expr)?;
                LayoutQualifierSpecData::Identifier(r.identifier(), value)
            };
            Ok(id.into())
        })
    }

    /// A full type: kind 31.
    pub(super) fn full_type(&mut self) -> Read<ast::FullySpecifiedType> {
        self.node(&Place::of(&[31..=31]), |reader, r| {
            let qualifier = reader.when(r.has(1), Self::qualifier)?;
            Ok(FullySpecifiedTypeData { qualifier, ty: reader.type_specifier()? }.into())
        })
    }
}
