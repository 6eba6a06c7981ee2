// Made by tools/erase.py from crates/semver_ranges/src/range_set.rt; not edited by hand.
//! Range sets: the ranges of a string in one of two modes, and how they are printed.

use crate::rattle_std::prelude::*;
use crate::proved::semver_ranges::dialect::Dialect;
use crate::proved::semver_ranges::events::Events;
use crate::proved::semver_ranges::range::{Compat, Range};
use crate::proved::semver_ranges::rewriting::{Style, rewrite};
use crate::proved::semver_texts::grammar::Grammar;
use crate::proved::semver_texts::printing::write_joined;
use crate::rattle_std::fmt;

/// A range set: ranges, at least one of which a version has to satisfy.
///
/// ```
/// use semver_parser::{Compat, RangeSet};
///
/// let set = RangeSet::parse("^1.2.3 || 3.x", Compat::Npm)?;
/// assert_eq!(set.ranges.len(), 2);
/// assert_eq!(set.to_string(), ">=1.2.3 <2.0.0 || >=3.0.0 <4.0.0");
/// # Ok::<(), String>(())
/// ```
#[derive(Clone, PartialEq, Eq, PartialOrd, Ord, Hash, Debug)]
pub struct RangeSet {
    /// The ranges, in the order of the string.
    pub ranges: Vec<Range>,
    /// The mode in which the string was read.
    pub compat: Compat,
}

impl crate::rattle_std::FallibleClone for RangeSet {
    fn fallible_clone(&self) -> Result<Self, crate::rattle_std::AllocError> {
        match self {
            RangeSet { ranges, compat } => Ok(RangeSet { ranges: ranges.fallible_clone()?, compat: *compat }),
        }
    }
}

/// The error of a range string.
///
/// ```
/// use semver_parser::{Compat, RangeError, RangeSet};
///
/// let refused = |range| RangeSet::try_parse(range, Compat::Npm).unwrap_err();
/// assert_eq!(refused("v1.2.3"), RangeError::NotARange);
/// assert_eq!(refused("99999999999999999999"), RangeError::NumberTooLarge);
/// ```
#[derive(Clone, Copy, PartialEq, Eq, Debug)]
pub enum RangeError {
    /// The string is not a range.
    NotARange,
    /// The string is a range, but one of its numbers, or a raised bound, is above 2^64 - 1, or
    /// above 2^53 - 1 in npm's dialect.
    NumberTooLarge,
    /// The string is a range and its numbers fit, but an allocation failed.
    OutOfMemory,
}

impl crate::rattle_std::fmt::Display for RangeError {
    fn fmt(&self, f: &mut crate::rattle_std::fmt::Formatter<'_>) -> crate::rattle_std::fmt::Result {
        match self {
            RangeError::NotARange => write!(f, "not a range"),
            RangeError::NumberTooLarge => write!(f, "number too large"),
            RangeError::OutOfMemory => write!(f, "out of memory"),
        }
    }
}

#[cfg(feature = "std")]
impl crate::rattle_std::Error for RangeError {}

impl RangeSet {
    /// Reads a range string, such as `>=1.2 <2 || 3.x`, into plain comparators.
    ///
    /// A comma gives `NotARange`. The original crate accepts one comma after a comparator: replace
    /// commas by spaces to keep that meaning. `Dialect::Cargo` reads commas as Cargo does today.
    ///
    /// The string is one or more ranges separated by `||`. The page `docs::original_crate` has the
    /// whole grammar, the comparators of each term, and which versions satisfy it. A range is one
    /// of these:
    /// - nothing;
    /// - one or more terms separated by blanks, where a term is a partial after `=`, `<`, `<=`,
    ///   `>`, `>=`, `~`, `~>`, `^` or no operator;
    /// - two partials around a hyphen, with blanks on both sides.
    ///
    /// A blank is a space or a tab.
    ///
    /// The result has the ranges in the order of the string, each with its comparators in order,
    /// and `compat` in the set and in each range. It has at least one range, and each range has at
    /// least one comparator. The mode decides only how a bare version of three numbers is read.
    /// Build metadata is dropped.
    ///
    /// A version satisfies the result if and only if, in at least one range of the string, it
    /// satisfies every term or is a pre-release of that term's raised bound. For example,
    /// `2.0.0-alpha` is below the `<2.0.0` of `^1.2.3`. `RangeSet::parse_exact` has no such
    /// exception.
    ///
    /// # Errors
    ///
    /// - `NotARange` if the string isn't in the grammar, such as `1.2.3 -4`, `>=1.0.0, <2.0.0` or
    ///   `v1.2.3`.
    /// - `NumberTooLarge` if it is in the grammar, but a number before the first wildcard of its
    ///   partial, or an upper bound that is raised by one, is above 2^64 - 1, such as
    ///   `<=18446744073709551615`.
    /// - `OutOfMemory` if an allocation failed. The first two errors are returned without
    ///   allocating, so a string that has one of them never gives this one.
    ///
    /// ```
    /// use semver_parser::{Compat, RangeSet};
    ///
    /// let set = RangeSet::try_parse("1.2.3 || ~2.0.0-rc", Compat::Cargo)?;
    /// assert_eq!(set.to_string(), ">=1.2.3 <2.0.0 || >=2.0.0-rc <2.1.0");
    /// let set = RangeSet::try_parse("1.2.3 || ~2.0.0-rc", Compat::Npm)?;
    /// assert_eq!(set.to_string(), "=1.2.3 || >=2.0.0-rc <2.1.0");
    /// assert_eq!(RangeSet::try_parse("", Compat::Npm)?.to_string(), ">=0.0.0");
    /// # Ok::<(), semver_parser::RangeError>(())
    /// ```
    pub fn try_parse(input: &str, compat: Compat) -> Result<RangeSet, RangeError> {
        parse_with(input, compat, Style::Plain)
    }

    /// Reads a range string like `RangeSet::parse`, but with exact bounds: each upper bound that is
    /// raised by one gets the lowest pre-release, `0`. The Rust crate has no such function; npm
    /// writes its bounds like this.
    ///
    /// A bound that is written in the string stays as it is.
    ///
    /// No version with the numbers 2.0.0 is below `2.0.0-0`. So a version, even a pre-release,
    /// satisfies the result if and only if it satisfies the string: the exception of
    /// `RangeSet::parse` for pre-releases of raised bounds doesn't exist.
    ///
    /// # Errors
    ///
    /// The errors of `RangeSet::parse`, for the same strings. `OutOfMemory` is returned only if the
    /// string has a set.
    ///
    /// ```
    /// use semver_parser::{Compat, RangeSet};
    ///
    /// let exact = |range| RangeSet::parse_exact(range, Compat::Npm).unwrap().to_string();
    /// assert_eq!(exact("^1.2.3-beta.4"), ">=1.2.3-beta.4 <2.0.0-0");
    /// assert_eq!(exact("<=1.2"), "<1.3.0-0");
    /// assert_eq!(exact("1.x - 2"), ">=1.0.0 <3.0.0-0");
    /// assert_eq!(exact("<2"), "<2.0.0");
    /// assert_eq!(exact(">1"), ">1.0.0");
    /// ```
    pub fn parse_exact(input: &str, compat: Compat) -> Result<RangeSet, RangeError> {
        parse_with(input, compat, Style::Exact)
    }

    /// Reads a range string in Cargo mode. Result and errors are those of `RangeSet::parse` with
    /// `Compat::Cargo`.
    pub(crate) fn try_from_str(input: &str) -> Result<RangeSet, RangeError> {
        RangeSet::try_parse(input, Compat::Cargo)
    }
}

/// Returns the range set of a string in the crate's own dialect of a mode, or the reason why there
/// is none.
fn parse_with(
    input: &str,
    compat: Compat,
    style: Style,
) -> Result<RangeSet, RangeError> {
    let begin = Events::new(input.as_bytes(), Grammar::Crate);
    rewrite(begin, Dialect::of_mode(compat), style)
}

impl fmt::Display for RangeSet {
    /// Writes the ranges, separated by ` || `: `>=1.2.3 <2.0.0 || =3.0.0`. The mode isn't written.
    /// It does not allocate, and its only error is the writer's.
    fn fmt(&self, f: &mut fmt::Formatter<'_>) -> fmt::Result {
        write_joined(f, " || ", &self.ranges)
    }
}
