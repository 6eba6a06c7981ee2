// Made by tools/erase.py from crates/tool_ranges/src/cargo.rt; not edited by hand.
//! Cargo's dialect: `1.2` is `>=1.2.0 <2.0.0`, and commas separate comparators.

use crate::rattle_std::prelude::*;
use crate::proved::tool_ranges::rewriting::rewrite_with;
use crate::proved::semver_ranges::dialect::Dialect;
use crate::proved::semver_ranges::rewriting::Style;
use crate::proved::semver_ranges::{RangeError, RangeSet};

/// The maximum number of comparators in a requirement.
const MOST_COMPARATORS: usize = 32;

/// Rewrites a requirement in Cargo's dialect into plain comparators with exact bounds.
///
/// A requirement is either a single wildcard, or 1 to 32 comparators separated by commas. The page
/// `docs::grammar` has the grammar, and `docs::meaning` defines which versions satisfy each
/// comparator in Cargo. The result has one range, in Cargo mode.
///
/// `1.2` gives `>=1.2.0 <2.0.0-0`, `>=1.2.3, <2` gives `>=1.2.3 <2.0.0`, `>1.2` gives `>=1.3.0`,
/// and `*` gives `>=0.0.0`.
///
/// A release satisfies the result if and only if it satisfies the requirement. Which pre-releases
/// satisfy it can't be expressed by comparators.
///
/// # Errors
///
/// - `NotARange` if the string is not a requirement in Cargo's dialect, such as `1.2 || 3`,
///   `>=1 <2` or `1.x.3`.
/// - `NumberTooLarge` if the string is a requirement, but one of its numbers, or a bound that is
///   raised by one, is above 2^64 - 1, such as `>1.18446744073709551615`.
/// - `OutOfMemory` if an allocation fails. The first two errors are returned without allocating.
pub fn rewrite(requirement: &str) -> Result<RangeSet, RangeError> {
    rewrite_with(requirement, Dialect::Cargo, Style::Exact)
}

/// Returns whether a string has fewer commas than a requirement may have comparators.
#[inline(always)]
pub(crate) fn has_few_commas(text: &[u8]) -> bool {
    text.len() < MOST_COMPARATORS || commas(text) < MOST_COMPARATORS
}

/// Returns the number of commas in a string.
fn commas(text: &[u8]) -> usize {
    let mut commas = 0;
    for at in 0..text.len() {
        if text[at] == b',' {
            commas += 1;
        }
    }
    commas
}
