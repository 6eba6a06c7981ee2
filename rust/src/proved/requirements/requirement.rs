// Made by tools/erase.py from crates/requirements/src/requirement.rt; not edited by hand.
//! Writes a range as a requirement.

use crate::rattle_std::prelude::*;
use crate::proved::requirements::intervals::{Interval, intervals, joined, paired, write};
use crate::proved::semver_ranges::{Range, RangeError};
use crate::rattle_std::AllocError;
use crate::proved::tool_ranges::version_range::VersionRange;

/// What is tried, in this order.
const WAYS: [Way; 5] = [
    Way::Releases,
    Way::PreReleases,
    Way::Joined,
    Way::Paired,
    Way::Nothing,
];

/// A way to write the intervals of a range.
#[derive(Clone, Copy)]
enum Way {
    /// The intervals of releases.
    Releases,
    /// The intervals of pre-releases, whose bounds may be pre-releases.
    PreReleases,
    /// Intervals of pre-releases joined to the intervals of releases that they touch.
    Joined,
    /// Each interval of releases with those bounds of an interval of pre-releases that are at the
    /// same place.
    Paired,
    /// A range that contains no version.
    Nothing,
}

/// Returns a string that reads back as a range that contains the same versions, by the same rules,
/// or `None` if none was found. It is in the syntax of the range's dialect.
///
/// The range of `^1.2.3-b` gives `>=1.2.3-b <2.0.0` in npm's dialect, and `>=1.2.3-b, <2.0.0` in
/// Cargo's.
///
/// # Errors
///
/// `AllocError` if an allocation fails.
pub fn requirement(range: &VersionRange) -> Result<Option<String>, AllocError> {
    let releases = range.versions().release_ranges()?;
    let pre_releases = range.versions().pre_release_ranges()?;
    let releases = releases.range_set.ranges.as_slice();
    let pre_releases = pre_releases.range_set.ranges.as_slice();
    for way in WAYS {
        let written = written(way, range, releases, pre_releases)?;
        if reads_back(range, written.as_str())? {
            return Ok(Some(written));
        }
    }
    Ok(None)
}

/// Returns the intervals of a range, written in one way.
fn written(
    way: Way,
    range: &VersionRange,
    releases: &[Range],
    pre_releases: &[Range],
) -> Result<String, AllocError> {
    let all = match way {
        Way::Releases => intervals(releases)?,
        Way::PreReleases => intervals(pre_releases)?,
        Way::Joined => joined(releases, pre_releases)?,
        Way::Paired => paired(releases, pre_releases)?,
        Way::Nothing => Vec::new(),
    };
    write(all.as_slice(), range.rules().dialect.joint())
}

/// Returns whether a string reads back as a range that contains the same versions.
fn reads_back(range: &VersionRange, text: &str) -> Result<bool, AllocError> {
    match VersionRange::try_parse(text, range.rules()) {
        Ok(read) => Ok(*read.versions() == *range.versions()),
        Err(RangeError::OutOfMemory) => Err(AllocError),
        Err(RangeError::NotARange | RangeError::NumberTooLarge) => Ok(false),
    }
}
