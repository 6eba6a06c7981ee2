// Made by tools/erase.py from crates/tool_ranges/src/reading.rt; not edited by hand.
//! The events of a range string in each dialect, and the check of a string. Nothing here allocates.

use crate::rattle_std::prelude::*;
use crate::proved::tool_ranges::cargo::has_few_commas;
use crate::proved::tool_ranges::npm::may_stand;
use crate::proved::semver_ranges::RangeError;
use crate::proved::semver_ranges::checked::Checked;
use crate::proved::semver_ranges::dialect::Dialect;
use crate::proved::semver_ranges::events::Events;

/// Returns the events of a range string.
///
/// # Errors
///
/// `NotARange` if the string has a character that can't be in a range of npm, or more comparators
/// than a requirement of Cargo may have.
#[inline(always)]
pub(crate) fn events_of(text: &str, dialect: Dialect) -> Result<Events<'_>, RangeError> {
    if may_be_a_range(text, dialect) {
        Ok(Events::new(text.as_bytes(), dialect.grammar()))
    } else {
        Err(RangeError::NotARange)
    }
}

/// Returns whether a string keeps the rule of its dialect about whole strings: Cargo's about the
/// number of commas, and npm's about characters beyond ASCII.
#[inline(always)]
fn may_be_a_range(text: &str, dialect: Dialect) -> bool {
    match dialect {
        Dialect::Cargo => has_few_commas(text.as_bytes()),
        Dialect::Npm => may_stand(text),
        Dialect::CrateCargo | Dialect::CrateNpm => true,
    }
}

/// Checks a range string, and returns its terms.
///
/// # Errors
///
/// `NotARange` if the string isn't a range in the dialect, and `NumberTooLarge` if one of its
/// numbers, or a number that is raised for one of its bounds, is above the limit.
#[inline(always)]
pub(crate) fn checked_of(range: &str, dialect: Dialect) -> Result<Checked<'_>, RangeError> {
    let begin = events_of(range, dialect)?;
    Checked::new(begin, dialect)
}

/// Checks a range string, with the errors of `checked_of`.
#[inline(always)]
pub(crate) fn check(range: &str, dialect: Dialect) -> Result<(), RangeError> {
    match checked_of(range, dialect) {
        Ok(_) => Ok(()),
        Err(refusal) => Err(refusal),
    }
}
