// Made by tools/erase.py from crates/tool_ranges/src/satisfying.rt; not edited by hand.
//! Decides whether a version satisfies a range, both given as strings.

use crate::rattle_std::prelude::*;
use crate::proved::tool_ranges::meaning::{self, Rules};
use crate::proved::semver_ranges::RangeError;
use crate::proved::semver_versions::version::read_ref_in;

/// Whether the version or the range is invalid.
#[derive(Clone, Copy, PartialEq, Eq, Debug)]
pub enum SatisfiesError {
    /// The version is invalid in the dialect.
    InvalidVersion,
    /// The string is not a range in the dialect, or one of its numbers is too large.
    InvalidRange(RangeError),
}

impl crate::rattle_std::fmt::Display for SatisfiesError {
    fn fmt(&self, f: &mut crate::rattle_std::fmt::Formatter<'_>) -> crate::rattle_std::fmt::Result {
        match self {
            SatisfiesError::InvalidVersion => write!(f, "invalid version"),
            SatisfiesError::InvalidRange(_0) => write!(f, "invalid range: {_0}"),
        }
    }
}

#[cfg(feature = "std")]
impl crate::rattle_std::Error for SatisfiesError {}

/// Returns whether a version satisfies a range, both in the dialect of the meaning. It does not
/// allocate.
///
/// # Errors
///
/// `InvalidVersion` if the version is invalid in the dialect; otherwise `InvalidRange` if the range
/// is invalid, or one of its numbers is too large.
#[inline(always)]
pub fn satisfies(version: &[u8], range: &str, meaning: Rules) -> Result<bool, SatisfiesError> {
    let Some(borrowed) = read_ref_in(version, meaning.dialect.grammar()) else {
        return Err(SatisfiesError::InvalidVersion);
    };
    match meaning::satisfies(&borrowed, range, meaning) {
        Ok(met) => Ok(met),
        Err(error) => Err(SatisfiesError::InvalidRange(error)),
    }
}
