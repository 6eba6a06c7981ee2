// Made by tools/erase.py from crates/release_filter/src/held.rt; not edited by hand.
//! The lines that are held until the end of the text.

use crate::rattle_std::prelude::*;
use crate::proved::release_filter::selection::Selection;
use crate::proved::semver_versions::read_version::ReadVersion;

/// A kept line, and its version without the build metadata.
pub(crate) struct SelectedLine {
    pub(crate) version: ReadVersion,
    pub(crate) bytes: Vec<u8>,
}

/// Which lines are wanted, and the lines that are held for this: the best one so far, or all.
pub(crate) struct Held {
    pub(crate) selection: Selection,
    pub(crate) lines: Vec<SelectedLine>,
}
