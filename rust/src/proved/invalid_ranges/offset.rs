// Made by tools/erase.py from crates/invalid_ranges/src/offset.rt; not edited by hand.
//! The offset of the error in an invalid range string: the end of the longest prefix with which
//! some range begins. It is found by trying, with the dialect's own reader, whether a completion
//! makes a prefix a range, so there is no second grammar.

use crate::rattle_std::prelude::*;
use crate::proved::invalid_strings::longest::{Language, longest_prefix};
use crate::proved::semver_ranges::RangeError;
use crate::proved::semver_ranges::dialect::Dialect;
use crate::rattle_std::AllocError;
use crate::proved::tool_ranges::meaning::{self, Rules};
use crate::proved::version_sets::PreReleases;

/// The strings that complete a prefix. Which one does depends on the end of the prefix:
/// - After a number nothing is missing.
/// - After a dot, an operator or a space: a wildcard.
/// - After a hyphen or a plus, and after digits with a leading zero: a letter.
/// - After a bar: another bar.
/// - After the hyphen of a hyphen range: a space and a wildcard.
/// - If Cargo allows no wildcard: a number.
const COMPLETIONS: [&str; 6] = ["", "*", "a", "|", " *", "0"];

/// The range strings of a dialect.
#[derive(Clone, Copy)]
struct RangeTexts {
    dialect: Dialect,
}

impl Language for RangeTexts {
    fn contains(&self, text: &str) -> bool {
        is_range(self.dialect, text)
    }

    fn all_completions(&self) -> &[&str] {
        &COMPLETIONS
    }

    /// Nothing is missing after a number, an identifier or two bars, also if one more space
    /// follows. After a single bar the second one is missing, and otherwise a number is.
    fn likely(&self, prefix: &str) -> usize {
        match prefix.as_bytes() {
            [.., b'|', b'|'] => 0,
            [.., b'|'] => 3,
            [.., last] | [.., last, b' '] if may_end(*last) => 0,
            _ => 5,
        }
    }
}

/// Returns whether a range string may end in a byte.
fn may_end(byte: u8) -> bool {
    byte.is_ascii_alphanumeric() || matches!(byte, b'*' | b'|')
}

/// Returns the end of the longest prefix of a string with which some range begins. It takes O(n log
/// n) time for n bytes, and allocates one buffer of n + 8 bytes. `AllocError` if that fails.
pub(crate) fn prefix_end(dialect: Dialect, text: &str) -> Result<usize, AllocError> {
    longest_prefix(&RangeTexts { dialect }, text)
}

/// Returns whether a string is a range in a dialect, even if one of its numbers is too large.
/// `1.2 || 3` is one in npm's dialect, but not in Cargo's. It does not allocate.
pub(crate) fn is_range(dialect: Dialect, text: &str) -> bool {
    match check(dialect, text) {
        Ok(()) => true,
        Err(RangeError::NumberTooLarge) => true,
        Err(RangeError::NotARange) => false,
        Err(RangeError::OutOfMemory) => false,
    }
}

/// Returns the error with which a dialect rejects a string, if it does.
pub(crate) fn check(dialect: Dialect, text: &str) -> Result<(), RangeError> {
    let meaning = Rules {
        dialect,
        pre_releases: PreReleases::ByDialect,
    };
    meaning::check(meaning, text)
}
