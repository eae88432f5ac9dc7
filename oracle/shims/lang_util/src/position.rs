//! Positions in a source text. Our trees come from records, so no node has one.

/// A source file.
#[derive(Clone, Copy, Debug, PartialEq, Eq)]
pub enum FileId {}

/// An offset in a source text.
#[derive(Clone, Copy, Debug, PartialEq, Eq)]
pub enum TextSize {}

/// A range of offsets.
#[derive(Clone, Copy, Debug, PartialEq, Eq)]
pub enum TextRange {}

/// A range of a source file.
#[derive(Clone, Copy, Debug, PartialEq, Eq)]
pub enum NodeSpan {}
