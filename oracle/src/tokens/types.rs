//! Types, arrays, fields and qualifiers.

use super::Writer;
use crate::{tables, words};
use glsl_lang::ast::{
    self, ArraySpecifierDimensionData, LayoutQualifierSpecData, StorageQualifierData, TypeQualifierSpecData,
    TypeSpecifierNonArrayData,
};

impl Writer {
    /// Writes a type: a word or a struct, and its dimensions.
    pub(super) fn type_specifier(&mut self, ty: &ast::TypeSpecifier) {
        match &*ty.ty {
            TypeSpecifierNonArrayData::Struct(structure) => {
                self.put("struct");
                if let Some(name) = &structure.name {
                    self.put(&name.0);
                }
                self.fields(&structure.fields);
            }
            TypeSpecifierNonArrayData::TypeName(name) => self.put(&name.0),
            keyword => self.put(word_of(&tables::TYPE_KEYWORDS, &words::TYPE_KEYWORDS, keyword)),
        }
        self.array(&ty.array_specifier);
    }

    /// Writes a type with its qualifier, if it has one.
    pub(super) fn full_type(&mut self, ty: &ast::FullySpecifiedType) {
        self.each(&ty.qualifier, Self::qualifier);
        self.type_specifier(&ty.ty);
    }

    /// Writes the fields of a struct or of a block.
    pub(super) fn fields(&mut self, fields: &[ast::StructFieldSpecifier]) {
        self.enclosed(["{", "}"], |writer| writer.each(fields, Self::field));
    }

    fn field(&mut self, field: &ast::StructFieldSpecifier) {
        self.each(&field.qualifier, Self::qualifier);
        self.type_specifier(&field.ty);
        self.list(&field.identifiers, Self::arrayed_identifier);
        self.put(";");
    }

    /// Writes a name and its dimensions.
    pub(super) fn arrayed_identifier(&mut self, identifier: &ast::ArrayedIdentifier) {
        self.put(&identifier.ident.0);
        self.array(&identifier.array_spec);
    }

    /// Writes dimensions, where there are some.
    pub(super) fn array(&mut self, array: &Option<ast::ArraySpecifier>) {
        self.each(array.iter().flat_map(|array| &array.dimensions), Self::dimension);
    }

    fn dimension(&mut self, dimension: &ast::ArraySpecifierDimension) {
        self.enclosed(["[", "]"], |writer| match &**dimension {
            ArraySpecifierDimensionData::Unsized => (),
            ArraySpecifierDimensionData::ExplicitlySized(e) => writer.expr(e),
        });
    }

    pub(super) fn qualifier(&mut self, qualifier: &ast::TypeQualifier) {
        self.each(&qualifier.qualifiers, Self::qualifier_spec);
    }

    fn qualifier_spec(&mut self, spec: &ast::TypeQualifierSpec) {
        match &**spec {
            TypeQualifierSpecData::Storage(storage) => self.storage(storage),
            TypeQualifierSpecData::Layout(layout) => {
                self.put("layout");
                self.enclosed(["(", ")"], |writer| writer.list(&layout.ids, Self::layout_id));
            }
            TypeQualifierSpecData::Precision(precision) => self.precision(precision),
            TypeQualifierSpecData::Interpolation(interpolation) => {
                self.put(word_of(&tables::INTERPOLATION, words::INTERPOLATION, interpolation));
            }
            TypeQualifierSpecData::Invariant => self.put("invariant"),
            TypeQualifierSpecData::Precise => self.put("precise"),
        }
    }

    /// A subroutine has brackets only around types.
    fn storage(&mut self, storage: &StorageQualifierData) {
        match storage {
            StorageQualifierData::Subroutine(types) => {
                self.put("subroutine");
                if !types.is_empty() {
                    self.enclosed(["(", ")"], |writer| writer.list(types, Self::type_specifier));
                }
            }
            word => self.put(word_of(&tables::STORAGE, words::STORAGE, word)),
        }
    }

    fn layout_id(&mut self, id: &ast::LayoutQualifierSpec) {
        match &**id {
            LayoutQualifierSpecData::Identifier(name, value) => {
                self.put(&name.0);
                if let Some(value) = value {
                    self.put("=");
                    self.expr(value);
                }
            }
            LayoutQualifierSpecData::Shared => self.put("shared"),
        }
    }

    pub(super) fn precision(&mut self, precision: &ast::PrecisionQualifier) {
        self.put(word_of(&tables::PRECISION, words::PRECISION, precision));
    }
}

/// The word at the place where a table has this entry.
fn word_of<T: PartialEq>(table: &[T], words: &[&'static str], entry: &T) -> &'static str {
    let at = table.iter().position(|other| other == entry).expect("every variant of a record is in its table");
    words[at]
}
