// Made by tools/erase.py from crates/tool_ranges/src/npm.rt; not edited by hand.
//! npm's dialect: `>1.2` is `>=1.3.0`, and `v1` is a range.

use crate::rattle_std::prelude::*;
use crate::proved::tool_ranges::rewriting::rewrite_with;
use crate::proved::semver_ranges::dialect::Dialect;
use crate::proved::semver_ranges::rewriting::Style;
use crate::proved::semver_ranges::{RangeError, RangeSet};
use crate::proved::semver_texts::white_space::is_white_space_beyond_ascii;

/// Rewrites a range in npm's dialect into plain comparators with exact bounds.
///
/// The string is one or more ranges separated by `||`. The page `docs::grammar` has the grammar,
/// and `docs::meaning` defines which versions satisfy each range in npm. The result has the ranges
/// in the order of the string, in Npm mode. Each term of a range with which npm matches everything,
/// such as `*`, becomes `>=0.0.0`.
///
/// `>1.2` gives `>=1.3.0`, `<2` gives `<2.0.0-0`, `v1.2.3` gives `=1.2.3`, and `^1.2 || 3.x` gives
/// `>=1.2.0 <2.0.0-0 || >=3.0.0 <4.0.0-0`.
///
/// A release satisfies the result if and only if it satisfies the range. Which pre-releases satisfy
/// it can't be expressed by comparators: [`meaning::read`](crate::proved::tool_ranges::meaning::read) returns them as a
/// set.
///
/// # Errors
///
/// - `NotARange` if the string is not in npm's grammar, such as `>=1, <2` or `1.2.3-01`, or if a
///   part of it is too long for node-semver: the version of a comparator has at most 256
///   characters, and `docs::grammar` has the limits of numbers and identifiers.
/// - `NumberTooLarge` if the string is a range, but one of its numbers, or a bound that is raised
///   by one, is above 2^53 - 1, such as `>1.9007199254740991`.
/// - `OutOfMemory` if an allocation fails. The first two errors are returned without allocating.
pub fn rewrite(range: &str) -> Result<RangeSet, RangeError> {
    rewrite_with(range, Dialect::Npm, Style::Exact)
}

/// Rewrites a range, as npm reads it with `includePrerelease`, into plain comparators that say
/// which pre-releases satisfy it, too: `^1.2` gives `>=1.2.0-0 <2.0.0-0`.
///
/// A version satisfies the result, compared by precedence, if and only if it satisfies the range
/// and pre-releases are included. The result has the ranges in the order of the string, in Npm
/// mode. `*` becomes `>=0.0.0-0`.
///
/// # Errors
///
/// Those of [`rewrite`].
pub fn rewrite_included(range: &str) -> Result<RangeSet, RangeError> {
    rewrite_with(range, Dialect::Npm, Style::Lowest)
}

/// Returns whether every non-ASCII character of a string is white space to JavaScript. Strings of
/// only ASCII are recognized first, for speed.
pub(crate) fn may_stand(range: &str) -> bool {
    range.is_ascii()
        || range.chars().all(|character| character.is_ascii()
            || is_white_space_beyond_ascii(character))
}
