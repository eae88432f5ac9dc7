//! Questions on which a printer is compared with the oracle: whole trees and damaged ones, short inputs, inputs at document
//! 01's limits, reserved names at every place, all small expressions, and expressions in which signs meet. [`large`] makes the
//! trees on which times are taken.
//!
//! Most are iterators that make a question when it is asked for; what is random goes by seed, so that it can be had again.

pub mod cover;
pub mod damage;
pub mod large;
pub mod limits;
pub mod reserved;
pub mod short;
pub mod signs;
pub mod small;

use crate::answer::{Question, Root};
use crate::settings;

/// A question in TIGHT, and the same with needed spaces, in TIGHT and in OPEN (02, #106).
pub fn with_spaces(tight: Question) -> [Question; 3] {
    let spaced = [settings::EXPORT, settings::longer(settings::OPEN, 1)];
    let [export, open] = spaced.map(|settings| Question { settings: settings.to_vec(), ..tight.clone() });
    [tight, export, open]
}

/// A question in TIGHT.
pub fn tight(root: Root, records: Vec<u8>, names: impl Into<Vec<u8>>) -> Question {
    Question { root, settings: settings::TIGHT.to_vec(), records, names: names.into() }
}
