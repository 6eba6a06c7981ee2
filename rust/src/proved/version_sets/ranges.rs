// Made by tools/erase.py from crates/version_sets/src/ranges.rt; not edited by hand.
//! The set of the versions that are in at least one range, where a range is the intersection of
//! intervals.

use crate::rattle_std::prelude::*;
use crate::proved::version_sets::above_cuts::first_release;
use crate::proved::version_sets::conjunction::{Conjunction, Ranges};
use crate::proved::version_sets::cut::Interval;
use crate::proved::version_sets::pre_release_end::PreReleaseEnd;
use crate::proved::version_sets::release::{LOWEST, Release};
use crate::proved::version_sets::spans::{Bounds, Span, boundaries_of};
use crate::proved::version_sets::version_set::VersionSet;
use crate::proved::semver_texts::grammar::Digits;
use crate::proved::semver_versions::read_version::ReadVersion;
use crate::rattle_std::AllocError;

impl<'text> Conjunction<'text> {
    /// Returns the intersection of no intervals, which contains all versions.
    pub fn new() -> Conjunction<'text> {
        Conjunction {
            releases: Bounds {
                from: Some(LOWEST),
                to: None,
            },
            pre_releases: Bounds {
                from: Some(PreReleaseEnd::lowest(LOWEST)),
                to: None,
            },
        }
    }

    /// Returns the intersection with one more term, which has an interval for releases and one for
    /// pre-releases. `digits` says how numeric identifiers are read.
    #[inline(always)]
    pub fn and(
        self,
        releases: &Interval<'text>,
        pre_releases: &Interval<'text>,
        digits: Digits,
    ) -> Conjunction<'text> {
        Conjunction {
            releases: self.releases.and(released(releases)),
            pre_releases: self.pre_releases.and(pre_released(pre_releases, digits)),
        }
    }
}

/// Returns the releases of an interval.
#[inline(always)]
fn released(interval: &Interval<'_>) -> Bounds<Release> {
    let from = match &interval.lower {
        Some(cut) => first_release(cut),
        None => Some(LOWEST),
    };
    let to = match &interval.upper {
        Some(cut) => first_release(cut),
        None => None,
    };
    Bounds { from, to }
}

/// Returns the pre-releases of an interval.
#[inline(always)]
fn pre_released<'text>(interval: &Interval<'text>, digits: Digits) -> Bounds<PreReleaseEnd<'text>> {
    let from = match &interval.lower {
        Some(cut) => PreReleaseEnd::first(cut, digits),
        None => Some(PreReleaseEnd::lowest(LOWEST)),
    };
    let to = match &interval.upper {
        Some(cut) => PreReleaseEnd::first(cut, digits),
        None => None,
    };
    Bounds { from, to }
}

impl<'text> Ranges<'text> {
    /// Returns a list of no ranges, which contains no version. It does not allocate.
    pub fn new() -> Ranges<'text> {
        Ranges {
            releases: Vec::new(),
            pre_releases: Vec::new(),
        }
    }

    /// Adds the releases of a range. `Err` means out of memory.
    pub fn push_releases(&mut self, range: &Conjunction<'text>) -> Result<(), AllocError> {
        range.releases.push_to(&mut self.releases)
    }

    /// Adds the pre-releases of a range. `Err` means out of memory.
    pub fn push_pre_releases(&mut self, range: &Conjunction<'text>) -> Result<(), AllocError> {
        range.pre_releases.push_to(&mut self.pre_releases)
    }

    /// Adds the pre-releases of a range that have one of the given triples of numbers. `Err` means
    /// out of memory.
    pub fn push_stated(
        &mut self,
        range: &Conjunction<'text>,
        numbers: &Release,
    ) -> Result<(), AllocError> {
        range
            .pre_releases
            .and(among(*numbers))
            .push_to(&mut self.pre_releases)
    }

    /// Returns the set of the versions in these ranges, and of the releases in one last range.
    /// `Err` means out of memory.
    #[inline(always)]
    pub fn into_set(
        self,
        last: &Conjunction<'text>,
        digits: Digits,
    ) -> Result<VersionSet, AllocError> {
        let releases = all_releases(self.releases, &last.releases)?;
        let pre_releases = all_pre_releases(self.pre_releases)?;
        Ok(VersionSet::of_boundaries(digits, releases, pre_releases))
    }
}

/// Returns the bounds of the pre-releases with the given numbers.
pub(crate) fn among<'text>(numbers: Release) -> Bounds<PreReleaseEnd<'text>> {
    Bounds {
        from: Some(PreReleaseEnd::lowest(numbers)),
        to: PreReleaseEnd::above_numbers(numbers),
    }
}

/// Returns the boundaries of the releases, together with those of a last range. Nothing is sorted
/// if there is only the last range, for speed, since most range strings have one range.
#[inline(always)]
fn all_releases(
    spans: Vec<Span<Release>>,
    last: &Bounds<Release>,
) -> Result<Vec<Release>, AllocError> {
    if spans.is_empty() {
        return last.boundaries();
    }
    let mut spans = spans;
    last.push_to(&mut spans)?;
    boundaries_of(&mut spans)
}

/// Returns the boundaries of spans of pre-releases. Nothing is sorted if there are none, for speed,
/// since most range strings name no pre-release.
#[inline(always)]
fn all_pre_releases(
    spans: Vec<Span<PreReleaseEnd<'_>>>,
) -> Result<Vec<ReadVersion>, AllocError> {
    if spans.is_empty() {
        return Ok(Vec::new());
    }
    let mut spans = spans;
    boundaries_of(&mut spans)
}
