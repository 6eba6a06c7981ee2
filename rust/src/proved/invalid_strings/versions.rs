// Made by tools/erase.py from crates/invalid_strings/src/versions.rt; not edited by hand.
//! The versions of a dialect as a language.

use crate::rattle_std::prelude::*;
use crate::proved::invalid_strings::longest::Language;
use crate::proved::semver_texts::bytes::count_dots;
use crate::proved::semver_texts::grammar::Grammar;
use crate::proved::semver_versions::version::read_ref_in;

/// The strings that complete a prefix of a version. After a number or an identifier nothing is
/// missing; an identifier needs a letter; before that, numbers are missing.
const COMPLETIONS: [&str; 7] = ["", "a", "0", ".0", "0.0", ".0.0", "0.0.0"];

/// The versions of a dialect.
#[derive(Clone, Copy)]
pub(crate) struct Versions {
    pub grammar: Grammar,
}

impl Language for Versions {
    fn contains(&self, text: &str) -> bool {
        read_ref_in(text.as_bytes(), self.grammar).is_some()
    }

    fn all_completions(&self) -> &[&str] {
        &COMPLETIONS
    }

    /// The index depends on how many of the numbers are missing.
    fn likely(&self, prefix: &str) -> usize {
        let dots = count_dots(prefix.as_bytes());
        let ends = prefix
            .as_bytes()
            .last()
            .is_some_and(u8::is_ascii_alphanumeric);
        match (dots, ends) {
            (0, false) => 6,
            (0, true) => 5,
            (1, false) => 4,
            (1, true) => 3,
            (_, false) => 2,
            (_, true) => 0,
        }
    }
}
