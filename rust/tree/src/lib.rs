//! Trees for people: the records of a shader's tree as readable text, one node a line, and what a refusal of them
//! means.

pub mod document;
pub mod explain;
pub mod line;
pub mod ranges;
pub mod read;
pub mod record;
pub mod table;
pub mod walk;
pub mod words;
pub mod write;
