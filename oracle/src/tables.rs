//! Variants that stand for a word or an operator, in the orders that document 01 names.

use glsl_lang::ast::{
    AssignmentOpData, BinaryOpData, InterpolationQualifierData, PrecisionQualifierData, StorageQualifierData,
    TypeSpecifierNonArrayData, UnaryOpData,
};

/// Kind 7: `show_unary_op`'s order.
pub static UNARY: [UnaryOpData; 6] = [
    UnaryOpData::Inc,
    UnaryOpData::Dec,
    UnaryOpData::Add,
    UnaryOpData::Minus,
    UnaryOpData::Not,
    UnaryOpData::Complement,
];

/// Kind 8: `show_binary_op`'s order.
pub static BINARY: [BinaryOpData; 19] = [
    BinaryOpData::Or,
    BinaryOpData::Xor,
    BinaryOpData::And,
    BinaryOpData::BitOr,
    BinaryOpData::BitXor,
    BinaryOpData::BitAnd,
    BinaryOpData::Equal,
    BinaryOpData::NonEqual,
    BinaryOpData::Lt,
    BinaryOpData::Gt,
    BinaryOpData::Lte,
    BinaryOpData::Gte,
    BinaryOpData::LShift,
    BinaryOpData::RShift,
    BinaryOpData::Add,
    BinaryOpData::Sub,
    BinaryOpData::Mult,
    BinaryOpData::Div,
    BinaryOpData::Mod,
];

/// Kind 10: `show_assignment_op`'s order.
pub static ASSIGNMENT: [AssignmentOpData; 11] = [
    AssignmentOpData::Equal,
    AssignmentOpData::Mult,
    AssignmentOpData::Div,
    AssignmentOpData::Mod,
    AssignmentOpData::Add,
    AssignmentOpData::Sub,
    AssignmentOpData::LShift,
    AssignmentOpData::RShift,
    AssignmentOpData::And,
    AssignmentOpData::Xor,
    AssignmentOpData::Or,
];

/// Kind 29, variants 0..16: `show_storage_qualifier`'s order.
pub static STORAGE: [StorageQualifierData; 17] = [
    StorageQualifierData::Const,
    StorageQualifierData::InOut,
    StorageQualifierData::In,
    StorageQualifierData::Out,
    StorageQualifierData::Centroid,
    StorageQualifierData::Patch,
    StorageQualifierData::Sample,
    StorageQualifierData::Uniform,
    StorageQualifierData::Buffer,
    StorageQualifierData::Shared,
    StorageQualifierData::Coherent,
    StorageQualifierData::Volatile,
    StorageQualifierData::Restrict,
    StorageQualifierData::ReadOnly,
    StorageQualifierData::WriteOnly,
    StorageQualifierData::Attribute,
    StorageQualifierData::Varying,
];

/// Kind 29, variants 19..21.
pub static PRECISION: [PrecisionQualifierData; 3] =
    [PrecisionQualifierData::High, PrecisionQualifierData::Medium, PrecisionQualifierData::Low];

/// Kind 29, variants 22..24.
pub static INTERPOLATION: [InterpolationQualifierData; 3] =
    [InterpolationQualifierData::Smooth, InterpolationQualifierData::Flat, InterpolationQualifierData::NoPerspective];

/// Kind 21: the type keywords.
pub static TYPE_KEYWORDS: [TypeSpecifierNonArrayData; 119] = [
    TypeSpecifierNonArrayData::Void,
    TypeSpecifierNonArrayData::Bool,
    TypeSpecifierNonArrayData::Int,
    TypeSpecifierNonArrayData::UInt,
    TypeSpecifierNonArrayData::Float,
    TypeSpecifierNonArrayData::Double,
    TypeSpecifierNonArrayData::Vec2,
    TypeSpecifierNonArrayData::Vec3,
    TypeSpecifierNonArrayData::Vec4,
    TypeSpecifierNonArrayData::DVec2,
    TypeSpecifierNonArrayData::DVec3,
    TypeSpecifierNonArrayData::DVec4,
    TypeSpecifierNonArrayData::BVec2,
    TypeSpecifierNonArrayData::BVec3,
    TypeSpecifierNonArrayData::BVec4,
    TypeSpecifierNonArrayData::IVec2,
    TypeSpecifierNonArrayData::IVec3,
    TypeSpecifierNonArrayData::IVec4,
    TypeSpecifierNonArrayData::UVec2,
    TypeSpecifierNonArrayData::UVec3,
    TypeSpecifierNonArrayData::UVec4,
    TypeSpecifierNonArrayData::Mat2,
    TypeSpecifierNonArrayData::Mat3,
    TypeSpecifierNonArrayData::Mat4,
    TypeSpecifierNonArrayData::Mat22,
    TypeSpecifierNonArrayData::Mat23,
    TypeSpecifierNonArrayData::Mat24,
    TypeSpecifierNonArrayData::Mat32,
    TypeSpecifierNonArrayData::Mat33,
    TypeSpecifierNonArrayData::Mat34,
    TypeSpecifierNonArrayData::Mat42,
    TypeSpecifierNonArrayData::Mat43,
    TypeSpecifierNonArrayData::Mat44,
    TypeSpecifierNonArrayData::DMat2,
    TypeSpecifierNonArrayData::DMat3,
    TypeSpecifierNonArrayData::DMat4,
    TypeSpecifierNonArrayData::DMat22,
    TypeSpecifierNonArrayData::DMat23,
    TypeSpecifierNonArrayData::DMat24,
    TypeSpecifierNonArrayData::DMat32,
    TypeSpecifierNonArrayData::DMat33,
    TypeSpecifierNonArrayData::DMat34,
    TypeSpecifierNonArrayData::DMat42,
    TypeSpecifierNonArrayData::DMat43,
    TypeSpecifierNonArrayData::DMat44,
    TypeSpecifierNonArrayData::Sampler2D,
    TypeSpecifierNonArrayData::Sampler3D,
    TypeSpecifierNonArrayData::SamplerCube,
    TypeSpecifierNonArrayData::Sampler2DShadow,
    TypeSpecifierNonArrayData::Sampler2DArray,
    TypeSpecifierNonArrayData::AtomicUInt,
    TypeSpecifierNonArrayData::Sampler1D,
    TypeSpecifierNonArrayData::Sampler1DShadow,
    TypeSpecifierNonArrayData::Sampler1DArray,
    TypeSpecifierNonArrayData::Sampler1DArrayShadow,
    TypeSpecifierNonArrayData::ISampler1D,
    TypeSpecifierNonArrayData::ISampler1DArray,
    TypeSpecifierNonArrayData::USampler1D,
    TypeSpecifierNonArrayData::USampler1DArray,
    TypeSpecifierNonArrayData::Sampler2DArrayShadow,
    TypeSpecifierNonArrayData::ISampler2D,
    TypeSpecifierNonArrayData::ISampler2DArray,
    TypeSpecifierNonArrayData::USampler2D,
    TypeSpecifierNonArrayData::USampler2DArray,
    TypeSpecifierNonArrayData::Sampler2DRect,
    TypeSpecifierNonArrayData::Sampler2DRectShadow,
    TypeSpecifierNonArrayData::ISampler2DRect,
    TypeSpecifierNonArrayData::USampler2DRect,
    TypeSpecifierNonArrayData::Sampler2DMs,
    TypeSpecifierNonArrayData::ISampler2DMs,
    TypeSpecifierNonArrayData::USampler2DMs,
    TypeSpecifierNonArrayData::Sampler2DMsArray,
    TypeSpecifierNonArrayData::ISampler2DMsArray,
    TypeSpecifierNonArrayData::USampler2DMsArray,
    TypeSpecifierNonArrayData::ISampler3D,
    TypeSpecifierNonArrayData::USampler3D,
    TypeSpecifierNonArrayData::SamplerCubeShadow,
    TypeSpecifierNonArrayData::ISamplerCube,
    TypeSpecifierNonArrayData::USamplerCube,
    TypeSpecifierNonArrayData::SamplerCubeArray,
    TypeSpecifierNonArrayData::SamplerCubeArrayShadow,
    TypeSpecifierNonArrayData::ISamplerCubeArray,
    TypeSpecifierNonArrayData::USamplerCubeArray,
    TypeSpecifierNonArrayData::SamplerBuffer,
    TypeSpecifierNonArrayData::ISamplerBuffer,
    TypeSpecifierNonArrayData::USamplerBuffer,
    TypeSpecifierNonArrayData::Image1D,
    TypeSpecifierNonArrayData::IImage1D,
    TypeSpecifierNonArrayData::UImage1D,
    TypeSpecifierNonArrayData::Image1DArray,
    TypeSpecifierNonArrayData::IImage1DArray,
    TypeSpecifierNonArrayData::UImage1DArray,
    TypeSpecifierNonArrayData::Image2D,
    TypeSpecifierNonArrayData::IImage2D,
    TypeSpecifierNonArrayData::UImage2D,
    TypeSpecifierNonArrayData::Image2DArray,
    TypeSpecifierNonArrayData::IImage2DArray,
    TypeSpecifierNonArrayData::UImage2DArray,
    TypeSpecifierNonArrayData::Image2DRect,
    TypeSpecifierNonArrayData::IImage2DRect,
    TypeSpecifierNonArrayData::UImage2DRect,
    TypeSpecifierNonArrayData::Image2DMs,
    TypeSpecifierNonArrayData::IImage2DMs,
    TypeSpecifierNonArrayData::UImage2DMs,
    TypeSpecifierNonArrayData::Image2DMsArray,
    TypeSpecifierNonArrayData::IImage2DMsArray,
    TypeSpecifierNonArrayData::UImage2DMsArray,
    TypeSpecifierNonArrayData::Image3D,
    TypeSpecifierNonArrayData::IImage3D,
    TypeSpecifierNonArrayData::UImage3D,
    TypeSpecifierNonArrayData::ImageCube,
    TypeSpecifierNonArrayData::IImageCube,
    TypeSpecifierNonArrayData::UImageCube,
    TypeSpecifierNonArrayData::ImageCubeArray,
    TypeSpecifierNonArrayData::IImageCubeArray,
    TypeSpecifierNonArrayData::UImageCubeArray,
    TypeSpecifierNonArrayData::ImageBuffer,
    TypeSpecifierNonArrayData::IImageBuffer,
    TypeSpecifierNonArrayData::UImageBuffer,
];

/// The type keywords that the Rust module misspells: section 3.6's word, which is printed, and the module's (02, #102).
pub const MISSPELT: [(&str, &str); 2] = [("isampler2DMS", "isampler2MS"), ("usampler2DMSArray", "usamplerDMSArray")];

#[cfg(test)]
mod tests {
    use super::*;
    use crate::words;
    use glsl_lang::transpiler::glsl::{
        show_interpolation_qualifier, show_precision_qualifier, show_storage_qualifier, show_type_specifier_non_array,
        FormattingState,
    };

    /// The words of a table, as the Rust module writes them.
    macro_rules! shown {
        ($table:expr, $show:path) => {
            $table.iter().map(|entry| {
                let mut text = String::new();
                $show(&mut text, &entry.clone().into(), &mut FormattingState::default()).expect("a String takes all");
                text
            })
        };
    }

    /// As documents 01 and 02 list them.
    #[test]
    fn type_keywords_are_written_by_their_words_but_for_two() {
        let shown: Vec<String> = shown!(TYPE_KEYWORDS, show_type_specifier_non_array).collect();
        assert_eq!(shown.len(), words::TYPE_KEYWORDS.len());
        let both = words::TYPE_KEYWORDS.into_iter().zip(shown.iter().map(String::as_str));
        assert!(both.filter(|(word, shown)| word != shown).eq(MISSPELT));
        assert_eq!([69, 73].map(|variant| words::TYPE_KEYWORDS[variant]), MISSPELT.map(|(word, _)| word));
    }

    #[test]
    fn qualifiers_are_written_by_the_words_of_their_tables() {
        assert!(shown!(STORAGE, show_storage_qualifier).eq(words::STORAGE.iter().copied()));
        assert!(shown!(PRECISION, show_precision_qualifier).eq(words::PRECISION.iter().copied()));
        assert!(shown!(INTERPOLATION, show_interpolation_qualifier).eq(words::INTERPOLATION.iter().copied()));
    }
}
