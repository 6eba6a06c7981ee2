// Made by tools/erase.py from crates/release_filter/src/line_options.rt; not edited by hand.
//! Options for lines.

use crate::rattle_std::prelude::*;
use crate::proved::release_filter::line_texts::LineEnd;
use crate::proved::release_filter::selection::Selection;

/// The options of [`Lines`](crate::proved::release_filter::lines::Lines).
#[derive(Clone, Copy, Debug)]
pub struct LineOptions {
    /// Which of the kept lines are wanted.
    pub selection: Selection,
    /// What ends a line.
    pub ending: LineEnd,
    /// Whether a kept line is written without the prefix before its version.
    pub strips_prefix: bool,
    /// Whether a line that isn't empty and has no version is an error.
    pub is_strict: bool,
}

impl LineOptions {
    /// Returns the default options: every kept line is wanted and stays as it is, a line feed ends
    /// a line, and a line without a version is not an error.
    #[must_use]
    pub fn new() -> LineOptions {
        LineOptions {
            selection: Selection::Each,
            ending: LineEnd::LineFeed,
            strips_prefix: false,
            is_strict: false,
        }
    }
}
