// Made by tools/erase.py from crates/invalid_ranges/src/refusals.rt; not edited by hand.
//! Where and why a string is not a valid range.

use crate::rattle_std::prelude::*;
use crate::proved::invalid_ranges::limit::{limit_offset, limit_reason};
use crate::proved::invalid_ranges::offset::{check, prefix_end};
use crate::proved::invalid_ranges::reasons::reason_at;
use crate::proved::invalid_strings::reasons::Reason;
use crate::proved::semver_ranges::RangeError;
use crate::proved::semver_ranges::dialect::Dialect;
use crate::rattle_std::AllocError;

/// The error of an invalid range string: its offset and its reason.
#[derive(Clone, Copy)]
pub struct Refusal {
    /// `NotARange` or `NumberTooLarge`.
    pub error: RangeError,
    /// The byte offset of the error:
    /// - The first character that isn't allowed there in a range of the dialect.
    /// - The length of the string, if something is missing at its end.
    /// - If a number is too large, that number. It is in the first term that doesn't fit: the first
    ///   number above the limit of the dialect, or if there is none, the number that is raised and
    ///   can't be. The offset is 1 in `=18446744073709551616 || 1`.
    pub offset: usize,
    /// The reason. It may name another dialect that allows what is there.
    pub reason: Reason,
}

/// Returns the error of a range string in a dialect, with its offset and reason, or `None` if the
/// string is valid.
///
/// `1.2 || 3` in Cargo's dialect gives `NotARange` at 4, since Cargo doesn't allow `||`.
///
/// # Errors
///
/// `AllocError` if an allocation fails. It allocates only if the string is not a range, and then
/// two buffers of about its length, one after the other.
pub fn refused(dialect: Dialect, text: &str) -> Result<Option<Refusal>, AllocError> {
    let Err(error) = check(dialect, text) else {
        return Ok(None);
    };
    let (offset, reason) = explained(dialect, text, &error)?;
    Ok(Some(Refusal {
        error,
        offset,
        reason,
    }))
}

/// Returns the offset of an error in a string, and the reason.
fn explained(
    dialect: Dialect,
    text: &str,
    error: &RangeError,
) -> Result<(usize, Reason), AllocError> {
    match error {
        RangeError::NumberTooLarge => {
            let offset = limit_offset(dialect, text);
            let reason = limit_reason(dialect, &text.as_bytes()[offset..]);
            Ok((offset, reason))
        }
        _ => {
            let offset = prefix_end(dialect, text)?;
            let reason = reason_at(dialect, text, offset)?;
            Ok((offset, reason))
        }
    }
}
