//! The stored sample of states: what the Rust module's own FormattingState is left as by `new_line` and `consume_newline`.
//!
//! A case is three records (see the samples' format) and nothing behind them:
//!
//! | record | kind | variant | count |
//! |---|---|---|---|
//! | 0 | 0 `consume_newline`, 1 `new_line(false)`, 2 `new_line(true)` | the flags before | the level before |
//! | 1 | 0 | the flags behind the call | the level behind it |
//! | 2 | 0 | 0 | 0 |
//!
//! Flags: 1 for `new_line_pending`, 2 for `in_function_definition_statement`.

use super::first;
use crate::settings;
use crate::tree::{all, rec};
use glsl_lang::transpiler::glsl::FormattingState;

/// The first record's kind.
const STATES: u8 = 2;
/// Levels of an indent: small ones, the deepest trees', and the ends of 8, 15 and 16 bits.
const LEVELS: [u16; 16] = [0, 1, 2, 3, 4, 7, 199, 200, 201, 255, 256, 257, 32_767, 32_768, 65_534, 65_535];
const FLAGS: u8 = 4;
const CALLS: u8 = 3;

/// Flags and level of a state.
type Seen = (u8, u16);

/// What the derived Debug shows of a state: its fields are private.
fn seen(state: &FormattingState<'_>) -> Seen {
    let shown = format!("{state:?}");
    let field = |name: &str| {
        let (_, value) = shown.rsplit_once(&format!(" {name}: ")).expect("Debug shows every field");
        value.split([',', ' ']).next().unwrap_or_default().to_owned()
    };
    let flag = |name| u8::from(field(name) == "true");
    let level = field("indentation_level").parse().expect("the level has 16 bits here");
    (flag("new_line_pending") + 2 * flag("in_function_definition_statement"), level)
}

/// A state that is seen so, made by the module's own methods.
fn made<'s>(mut state: FormattingState<'s>, (flags, level): Seen) -> FormattingState<'s> {
    for _ in 0..level {
        state.enter_collapsed_compound_statement().expect("nothing is written");
    }
    if flags & 1 != 0 {
        state.new_line(true).expect("nothing is written");
    }
    if flags & 2 != 0 {
        state.enter_function_definition_statement();
    }
    state
}

/// The state behind a call.
fn called(call: u8, mut state: FormattingState<'_>) -> FormattingState<'_> {
    match call {
        0 => state.consume_newline(),
        _ => state.new_line(call == 2).expect("nothing is written"),
    }
    state
}

/// A case: the call, and what is seen before it and behind it.
fn cases() -> Vec<(u8, Seen, Seen)> {
    // With these a statement that is collapsed asks for no newline.
    let settings = settings::tight();
    let fresh = FormattingState::from(&settings);
    let before = LEVELS.into_iter().flat_map(|level| (0..FLAGS).map(move |flags| (flags, level)));
    let states: Vec<_> = before.map(|seen| made(fresh, seen)).collect();
    let calls = (0..CALLS).flat_map(|call| states.iter().map(move |&state| (call, state)));
    calls.map(|(call, state)| (call, seen(&state), seen(&called(call, state)))).collect()
}

/// The file. Nothing in it is random.
pub fn file() -> Vec<u8> {
    let cases = cases();
    let bytes = |&(call, (flags, level), (flags_after, level_after)): &(u8, Seen, Seen)| {
        all(&[&rec(call, flags, level, 0, 0), &rec(0, flags_after, level_after, 0, 0), &rec(0, 0, 0, 0, 0)])
    };
    [first(STATES, cases.len())].into_iter().chain(cases.iter().map(bytes)).collect::<Vec<_>>().concat()
}

#[cfg(test)]
mod tests {
    use super::*;
    use std::collections::BTreeSet;

    #[test]
    fn every_state_is_asked_about_and_some_are_changed() {
        let cases = cases();
        let count = usize::from(FLAGS) * usize::from(CALLS) * LEVELS.len();
        let asked: BTreeSet<_> = cases.iter().map(|(call, before, _)| (call, before)).collect();
        assert_eq!((cases.len(), asked.len()), (count, count));
        // Each of the two calls that can changes half of the states.
        let changed = cases.iter().filter(|(_, before, after)| before != after).count();
        assert_eq!(changed, usize::from(FLAGS) * LEVELS.len());
    }
}
