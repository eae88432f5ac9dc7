//! The header for C says what this crate says: the same refusals by name, number and meaning, which are the printer's own, and
//! the same settings.

use glsl_print::{Refusal, EXPORT, OPEN, TIGHT};

const HEADER: &str = include_str!("../../../include/glsl_print.h");
const REFUSALS: &str = include_str!("../../../crates/accept/specs/Refusal.antt");

/// The header's name of a refusal: `RoomTooSmall` is GLSL_ROOM_TOO_SMALL.
fn name_in_c(refusal: Refusal) -> String {
    let word =
        |letter: char| if letter.is_uppercase() { format!("_{letter}") } else { letter.to_uppercase().to_string() };
    format!("GLSL{}", format!("{refusal:?}").chars().map(word).collect::<String>())
}

#[test]
fn refusals_are_the_same() {
    let lines: Vec<&str> =
        HEADER.lines().filter(|line| line.trim_start().starts_with("GLSL_") && line.contains(" = ")).collect();
    assert_eq!(lines.len(), 1 + Refusal::ALL.len(), "none, and each");
    for (line, &refusal) in lines[1..].iter().zip(Refusal::ALL) {
        let said = line.trim_start().split([',', ' ', '/']).take(3).collect::<Vec<_>>().join(" ");
        assert_eq!(said, format!("{} = {}", name_in_c(refusal), refusal.number()));
        assert!(line.contains(&format!("/* {refusal}")), "{line}");
    }
}

#[test]
fn refusals_are_those_of_the_printer() {
    let lines: Vec<&str> = REFUSALS.lines().filter(|line| line.starts_with("number Why.")).collect();
    assert_eq!(lines.len(), Refusal::ALL.len());
    for line in Refusal::ALL.iter().map(|refusal| format!("number Why.{refusal:?} = {}", refusal.number())) {
        assert!(lines.contains(&line.as_str()), "{line}");
    }
}

#[test]
fn settings_are_the_same() {
    for (name, length, settings) in [
        ("GLSL_EXPORT", "GLSL_EXPORT_LENGTH", &EXPORT[..]),
        ("GLSL_TIGHT", "GLSL_SETTINGS_LENGTH", &TIGHT),
        ("GLSL_OPEN", "GLSL_SETTINGS_LENGTH", &OPEN),
    ] {
        let bytes: Vec<String> = settings.iter().map(u8::to_string).collect();
        let array = format!("static const uint8_t {name}[{length}] = {{{}}};", bytes.join(", "));
        assert!(HEADER.contains(&array), "{array}");
        assert!(HEADER.contains(&format!("{length} = {}", settings.len())), "{length}");
    }
}
