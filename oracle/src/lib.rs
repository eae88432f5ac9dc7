//! The oracle: answers for trees given as records (document 01), with the texts of the Rust module itself (000).
//!
//! A question goes through [`read`] (records to the tree of 001, refusals 1 to 12 and 15) and then to the Rust printer; [`mended`]
//! mends the two words that it misspells, and [`spaced`] puts needed spaces into its text, both by the tree's [`tokens`].
//! [`joined`] is the reference for the joined question, [`mod@name`] for a record's name. [`grow`] makes random trees,
//! [`mod@line`] is the format on disk.
//! [`exact`] holds the joined question, and [`needed`] the needed spaces, against tokens and [`mod@split`], on all small
//! expressions; [`layout`] does so on random trees under random settings, and holds their texts against each other. All of it
//! is written from the words of documents 01 and 02, not from our own definitions, so that it can contradict them.

pub mod answer;
pub mod cases;
pub mod exact;
pub mod grow;
pub mod joined;
pub mod layout;
pub mod line;
pub mod mended;
pub mod name;
pub mod needed;
pub mod print;
pub mod random;
pub mod read;
pub mod record;
pub mod refusal;
pub mod sample;
pub mod settings;
pub mod spaced;
pub mod split;
pub mod tables;
pub mod tokens;
pub mod tree;
pub mod words;
