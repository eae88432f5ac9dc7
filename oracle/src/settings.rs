//! The settings record: 21 bytes for the fields of the module's `FormattingSettings`, in their order (01), and perhaps one
//! more for a setting of our own (02, #106).

use crate::random::Random;
use crate::refusal::{Reason, Refusal};
use glsl_lang::transpiler::glsl::{FormattingSettings, IndentStyle, Whitespace};

/// Bytes of a settings record that says nothing of our own setting.
pub const SIZE: usize = 21;
/// Bytes of one that does.
pub const LONGER: usize = SIZE + 1;
/// All zero.
pub const TIGHT: [u8; SIZE] = [0; SIZE];
/// Indents of four spaces, a newline wherever one can stand, no collapse.
pub const OPEN: [u8; SIZE] = [2, 4, 1, 1, 1, 1, 1, 1, 2, 2, 2, 2, 1, 2, 2, 0, 1, 1, 1, 1, 1];
/// TIGHT with needed spaces: what an export should use.
pub const EXPORT: [u8; LONGER] = longer(TIGHT, 1);
/// The greatest value of each byte: the indent and its count, then flags (1) and whitespaces (2).
pub const GREATEST: [u8; LONGER] = [2, 16, 1, 1, 1, 1, 1, 1, 2, 2, 2, 2, 1, 2, 2, 1, 1, 1, 1, 1, 1, 1];

/// The byte of spaces_around_binary_ops.
pub const OPERATOR_SPACES: usize = 12;
/// The byte of collapse_single_item_compound_statements.
pub const COLLAPSE: usize = 15;
/// The byte of our own setting.
pub const SPACES_WHERE_NEEDED: usize = SIZE;

/// What a settings record says.
#[derive(Clone, Debug, PartialEq, Eq)]
pub struct Settings {
    /// The module's own settings.
    pub module: FormattingSettings,
    /// Whether needed spaces are written (02, #106), which the module knows nothing of.
    pub spaces_where_needed: bool,
}

/// A record with a value for our own setting.
pub const fn longer(record: [u8; SIZE], spaces_where_needed: u8) -> [u8; LONGER] {
    let mut bytes = [spaces_where_needed; LONGER];
    bytes.split_at_mut(SIZE).0.copy_from_slice(&record);
    bytes
}

/// Each value of each byte: where it stands, and the value.
pub fn values() -> impl Iterator<Item = (usize, u8)> + Clone {
    GREATEST.into_iter().enumerate().flat_map(|(at, greatest)| (0..=greatest).map(move |value| (at, value)))
}

/// Reads a settings record; refusal 1 where it is none. 21 bytes mean that the last is 0.
pub fn read(bytes: &[u8]) -> Result<Settings, Refusal> {
    let is_in_range = bytes.iter().zip(&GREATEST).all(|(byte, greatest)| byte <= greatest);
    match bytes.split_first_chunk() {
        Some((module, rest @ ([] | [_]))) if is_in_range => Ok(with(module, rest == [1])),
        _ => Err(Refusal::whole(Reason::Settings)),
    }
}

/// The settings of a record whose bytes are in range, with a value for our own setting.
pub(crate) fn with(record: &[u8; SIZE], spaces_where_needed: bool) -> Settings {
    Settings { module: from_valid(record), spaces_where_needed }
}

/// The 21 bytes that every settings record has: TIGHT, OPEN, or anything in range.
pub(crate) fn any(random: &mut Random) -> [u8; SIZE] {
    match random.weighted(&[(15, Some(TIGHT)), (15, Some(OPEN)), (70, None)]).flatten() {
        Some(constant) => constant,
        None => std::array::from_fn(|at| random.byte(GREATEST[at])),
    }
}

/// TIGHT as the module's settings.
pub fn tight() -> FormattingSettings {
    from_valid(&TIGHT)
}

/// The module's settings of bytes in range.
fn from_valid(bytes: &[u8; SIZE]) -> FormattingSettings {
    let flag = |at: usize| bytes[at] == 1;
    let whitespace = |at: usize| whitespace_of(bytes[at]);
    FormattingSettings {
        indent_style: indent_of(bytes[0], bytes[1]),
        space_before_open_block: flag(2),
        newline_after_open_block: flag(3),
        newline_before_close_block: flag(4),
        newline_after_close_block: flag(5),
        newline_after_collapsed_statement: flag(6),
        newline_before_collapsed_statement: flag(7),
        struct_field_separator: whitespace(8),
        struct_declaration_terminator: whitespace(9),
        declaration_terminator: whitespace(10),
        case_label_terminator: whitespace(11),
        spaces_around_binary_ops: flag(OPERATOR_SPACES),
        statement_terminator: whitespace(13),
        function_definition_terminator: whitespace(14),
        collapse_single_item_compound_statements: flag(COLLAPSE),
        space_before_else: flag(16),
        space_after_list_separator: flag(17),
        space_after_for_statement_separator: flag(18),
        spaces_surrounding_initializer_list_expressions: flag(19),
        spaces_surrounding_statement_parentheses: flag(20),
    }
}

/// 0 none, 1 tabs, 2 spaces. The module never reads `tab_size`.
fn indent_of(style: u8, count: u8) -> IndentStyle {
    let count = u32::from(count);
    match style {
        0 => IndentStyle::None,
        1 => IndentStyle::Tabs { tab_size: 0, count },
        _ => IndentStyle::Spaces { count },
    }
}

/// 0 None, 1 Space, 2 Newline.
fn whitespace_of(byte: u8) -> Whitespace {
    match byte {
        0 => Whitespace::None,
        1 => Whitespace::Space,
        _ => Whitespace::Newline,
    }
}

#[cfg(test)]
mod tests {
    use super::*;

    #[test]
    fn open_is_the_default_of_the_module() {
        let open = Settings { module: FormattingSettings::default(), spaces_where_needed: false };
        assert_eq!(read(&OPEN), Ok(open));
    }

    #[test]
    fn tight_is_minifying_but_for_collapse() {
        let minifying = FormattingSettings::minifying();
        let collapsing = FormattingSettings { collapse_single_item_compound_statements: true, ..tight() };
        assert_eq!(minifying, collapsing);
    }

    #[test]
    fn the_last_byte_is_our_own_setting() {
        for record in [TIGHT, OPEN] {
            let [short, at_0, at_1] = [&record[..], &longer(record, 0), &longer(record, 1)].map(read);
            assert_eq!(short, at_0);
            assert_eq!(short.map(|settings| Settings { spaces_where_needed: true, ..settings }), at_1);
        }
        assert_eq!(read(&EXPORT), Ok(Settings { module: tight(), spaces_where_needed: true }));
    }

    #[test]
    fn out_of_range_or_length_is_refused() {
        let refusal = Err(Refusal::whole(Reason::Settings));
        for length in (0..SIZE).chain([LONGER + 1, 2 * SIZE]) {
            assert_eq!(read(&vec![0; length]), refusal, "{length}");
        }
        for base in [&TIGHT[..], &EXPORT] {
            for at in 0..base.len() {
                let mut bytes = base.to_vec();
                bytes[at] = GREATEST[at];
                assert!(read(&bytes).is_ok(), "{at}");
                bytes[at] += 1;
                assert_eq!(read(&bytes), refusal, "{at}");
            }
        }
    }
}
