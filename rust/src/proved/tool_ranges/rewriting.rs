// Made by tools/erase.py from crates/tool_ranges/src/rewriting.rt; not edited by hand.
//! A range in each dialect as plain comparators.

use crate::rattle_std::prelude::*;
use crate::proved::tool_ranges::reading::events_of;
use crate::proved::tool_ranges::{cargo, npm};
use crate::proved::semver_ranges::dialect::Dialect;
use crate::proved::semver_ranges::rewriting::{Style, rewrite as rewrite_events};
use crate::proved::semver_ranges::{Compat, RangeError, RangeSet};

/// Rewrites a range in a dialect into plain comparators with exact bounds.
///
/// It calls [`cargo::rewrite`](crate::proved::tool_ranges::cargo::rewrite), [`npm::rewrite`](crate::proved::tool_ranges::npm::rewrite) or
/// `RangeSet::parse_exact`: `1.2` gives `>=1.2.0 <2.0.0-0` in Cargo's dialect, and
/// `>=1.2.0 <1.3.0-0` in the others. A release satisfies the result if and only if it satisfies the
/// range. Printed, the result is a range that `RangeSet::parse` rewrites to the same set.
///
/// # Errors
///
/// - `NotARange` if the string is not a range in the dialect.
/// - `NumberTooLarge` if it is a range, but one of its numbers, or a bound that is raised by one,
///   is above 2^64 - 1, or above 2^53 - 1 in npm's dialect.
/// - `OutOfMemory` if an allocation fails. The first two errors are returned without allocating.
pub fn rewrite(dialect: Dialect, range: &str) -> Result<RangeSet, RangeError> {
    match dialect {
        Dialect::Cargo => cargo::rewrite(range),
        Dialect::Npm => npm::rewrite(range),
        Dialect::CrateCargo => RangeSet::parse_exact(range, Compat::Cargo),
        Dialect::CrateNpm => RangeSet::parse_exact(range, Compat::Npm),
    }
}

/// Rewrites a range in a dialect into plain comparators. The string is checked first, so that an
/// invalid one doesn't allocate.
#[inline(always)]
pub(crate) fn rewrite_with(
    range: &str,
    dialect: Dialect,
    style: Style,
) -> Result<RangeSet, RangeError> {
    let begin = events_of(range, dialect)?;
    rewrite_events(begin, dialect, style)
}
