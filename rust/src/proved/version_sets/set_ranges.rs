// Made by tools/erase.py from crates/version_sets/src/set_ranges.rt; not edited by hand.
//! A set as ranges of plain comparators, and as a string.

use crate::rattle_std::prelude::*;
use crate::proved::version_sets::comparators::ranges_of;
use crate::proved::version_sets::version_set::VersionSet;
use crate::proved::semver_ranges::{Comparator, Compat, Op, Range, RangeSet};
use crate::proved::semver_texts::identifiers::AsIdentifier;
use crate::proved::semver_texts::precedence::IdentifierRef;
use crate::rattle_std::AllocError;
use crate::rattle_std::fmt;

/// The releases or the pre-releases of a set as ranges of plain comparators: one range for each
/// interval, in ascending order.
///
/// `Display` writes a range in npm mode: `*` if all are in the set, and `<0.0.0-0`, which no
/// version satisfies, if none is.
#[derive(Debug)]
pub struct SetRanges {
    /// The ranges, in `Compat::Npm`. Each has one or two comparators.
    pub range_set: RangeSet,
}

impl VersionSet {
    /// Returns the releases of the set as ranges of plain comparators.
    ///
    /// The ranges are:
    ///
    /// - `=1.2.0` if 1.2.0 is the only release in its interval, otherwise `>=1.9.0 <2.0.0`;
    /// - `>=1.9.0` if the interval has no end, and `<2.0.0` if it begins with 0.0.0;
    /// - only `>=0.0.0` if all releases are in the set, which `Display` writes as `*`;
    /// - no range if the set contains no release.
    ///
    /// It takes time linear in the number of boundaries, and allocates only if the set contains a
    /// release. `Err` means out of memory.
    pub fn release_ranges(&self) -> Result<SetRanges, AllocError> {
        let ranges = ranges_of(&self.releases)?;
        Ok(in_npm_mode(ranges))
    }

    /// Returns the pre-releases of the set as ranges of plain comparators, like
    /// [`VersionSet::release_ranges`] for the releases. A pre-release satisfies them by precedence.
    ///
    /// Each lower bound has a pre-release. An upper bound is a release if all pre-releases right
    /// below it are in the set, as in `>=1.2.3-b <1.2.3`. The version right above 1.2.3-a is
    /// 1.2.3-a.0, so if only 1.2.3-a is in the interval, it is written as `=1.2.3-a`. The lowest
    /// pre-release is 0.0.0-0, and all pre-releases are `>=0.0.0-0`.
    ///
    /// It takes time linear in the number of boundaries, and allocates only if the set contains a
    /// pre-release. `Err` means out of memory.
    pub fn pre_release_ranges(&self) -> Result<SetRanges, AllocError> {
        let ranges = ranges_of(&self.pre_releases)?;
        Ok(in_npm_mode(ranges))
    }
}

/// Returns ranges as a set in npm mode.
fn in_npm_mode(ranges: Vec<Range>) -> SetRanges {
    SetRanges {
        range_set: RangeSet {
            ranges,
            compat: Compat::Npm,
        },
    }
}

impl fmt::Display for SetRanges {
    /// Writes the ranges as a range in npm mode, separated by ` || `: `*` for `>=0.0.0` and
    /// `>=0.0.0-0`, and `<0.0.0-0` for no range. It does not allocate, and its only error is the
    /// writer's.
    fn fmt(&self, f: &mut fmt::Formatter<'_>) -> fmt::Result {
        let (set, ranges) = (&self.range_set, self.range_set.ranges.as_slice());
        match ranges {
            [] => f.write_str("<0.0.0-0"),
            [range] if is_from_lowest(&range.comparator_set) => f.write_str("*"),
            _ => write!(f, "{set}"),
        }
    }
}

/// Returns whether the comparators are only `>=0.0.0` or only `>=0.0.0-0`.
fn is_from_lowest(comparators: &[Comparator]) -> bool {
    match comparators {
        [only] => {
            let is_zero = only.major == 0 && only.minor == 0 && only.patch == 0;
            matches!(&only.op, Op::Gte) && is_zero && is_lowest_pre(&only.pre)
        }
        _ => false,
    }
}

/// Returns whether there is no pre-release, or only the lowest, `0`.
pub(crate) fn is_lowest_pre<T: AsIdentifier>(identifiers: &[T]) -> bool {
    match identifiers {
        [] => true,
        [only] => matches!(only.as_identifier(), IdentifierRef::Numeric(0)),
        _ => false,
    }
}
