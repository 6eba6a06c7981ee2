// Made by tools/erase.py from crates/repaired_strings/src/errors.rt; not edited by hand.
//! The first error of a string that was meant as a version or as a range.

use crate::rattle_std::prelude::*;
use crate::proved::invalid_ranges::refusals as ranges;
use crate::proved::invalid_strings::reasons::Reason;
use crate::proved::invalid_strings::refusals as versions;
use crate::proved::semver_ranges::dialect::Dialect;
use crate::rattle_std::AllocError;

/// What a string is meant as.
#[derive(Clone, Copy, PartialEq, Eq, Debug)]
pub enum Expected {
    /// A version.
    Version,
    /// A range.
    Range,
}

/// The first error of a string.
#[derive(Clone, Copy)]
pub struct StringError {
    /// The byte offset of the error.
    pub offset: usize,
    /// The reason.
    pub reason: Reason,
}

/// Returns the first error of a string in a dialect, or `None` if the string is valid.
///
/// # Errors
///
/// `AllocError` if an allocation fails. It allocates only if the string is invalid.
pub fn first_error(
    expected: Expected,
    dialect: Dialect,
    text: &str,
) -> Result<Option<StringError>, AllocError> {
    match expected {
        Expected::Version => version_error(dialect, text),
        Expected::Range => range_error(dialect, text),
    }
}

/// Returns the first error of a string that is meant as a version.
fn version_error(
    dialect: Dialect,
    text: &str,
) -> Result<Option<StringError>, AllocError> {
    let Some(refusal) = versions::explain(text.as_bytes(), dialect.grammar())? else {
        return Ok(None);
    };
    Ok(Some(StringError {
        offset: refusal.offset,
        reason: refusal.reason,
    }))
}

/// Returns the first error of a string that is meant as a range.
fn range_error(
    dialect: Dialect,
    text: &str,
) -> Result<Option<StringError>, AllocError> {
    let Some(refusal) = ranges::refused(dialect, text)? else {
        return Ok(None);
    };
    Ok(Some(StringError {
        offset: refusal.offset,
        reason: refusal.reason,
    }))
}
