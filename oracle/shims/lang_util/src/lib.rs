//! What document 001 imports of the crate `lang_util`: the node that holds a piece of the tree, and the names beside it.
//!
//! Only the node's content and its equality reach the printer (000). The types of positions are there because 001 hands
//! them on; nothing makes a value of them.

pub mod node;
pub mod position;

pub use lang_util_derive::NodeContentDisplay;
pub use node::{NodeContent, NodeContentDisplay};
pub use position::{FileId, TextRange, TextSize};

/// Upstream a string that keeps short texts in place; here the standard one. Both are read through `str`.
pub type SmolStr = String;
