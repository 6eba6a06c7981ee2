// Made by tools/erase.py from crates/version_sets/src/at_or_above.rt; not edited by hand.
//! Whether some version that is in each of several intervals is at or above another version.
//! Nothing here allocates.

use crate::rattle_std::prelude::*;
use crate::proved::version_sets::conjunction::Conjunction;
use crate::proved::version_sets::pre_release_end::PreReleaseEnd;
use crate::proved::version_sets::ranges::among;
use crate::proved::version_sets::release::Release;
use crate::proved::version_sets::spans::Bounds;
use crate::proved::semver_texts::precedence::compare;
use crate::proved::semver_versions::version::VersionRef;

impl Conjunction<'_> {
    /// Returns whether some release in the intervals isn't below a borrowed version by precedence.
    /// It does not allocate.
    pub fn has_release_from(&self, version: &VersionRef<'_>) -> bool {
        has_release(
            self.releases.and(Bounds {
                from: Some(numbers(version)),
                to: None,
            }),
        )
    }

    /// Returns whether some pre-release in the intervals isn't below a borrowed version by
    /// precedence. It does not allocate.
    pub fn has_pre_release_from(&self, version: &VersionRef<'_>) -> bool {
        has_from(self.pre_releases, version)
    }

    /// Returns whether some pre-release in the intervals that has the given numbers isn't below a
    /// borrowed version by precedence. It does not allocate.
    pub fn has_stated_from(&self, numbers: &Release, version: &VersionRef<'_>) -> bool {
        has_from(self.pre_releases.and(among(*numbers)), version)
    }
}

/// Returns whether some pre-release within bounds isn't below a borrowed version by precedence.
fn has_from(bounds: Bounds<PreReleaseEnd<'_>>, version: &VersionRef<'_>) -> bool {
    let numbers = numbers(version);
    if version.is_pre_release() {
        return has_pre_release(bounds) && !has_reached(version, bounds.to);
    }
    has_pre_release(bounds.and(Bounds {
        from: PreReleaseEnd::above_numbers(numbers),
        to: None,
    }))
}

/// Returns whether some release is within bounds.
fn has_release(bounds: Bounds<Release>) -> bool {
    match bounds.span() {
        Some(span) => {
            let _from = (span.from.major, span.from.minor, span.from.patch);
            true
        }
        None => false,
    }
}

/// Returns whether some pre-release is within bounds.
fn has_pre_release(bounds: Bounds<PreReleaseEnd<'_>>) -> bool {
    match bounds.span() {
        Some(span) => {
            let numbers = span.from.numbers;
            let _from = (numbers.major, numbers.minor, numbers.patch);
            true
        }
        None => false,
    }
}

/// Returns whether a borrowed version is at or above an end. If there is no end, it isn't.
fn has_reached(version: &VersionRef<'_>, end: Option<PreReleaseEnd<'_>>) -> bool {
    let Some(end) = end else {
        return false;
    };
    let numbers = (version.major(), version.minor(), version.patch());
    let others = (end.numbers.major, end.numbers.minor, end.numbers.patch);
    compare(numbers, version.compared_pre(), others, end.compared_pre()).is_ge()
}

/// Returns the numbers of a borrowed version.
fn numbers(version: &VersionRef<'_>) -> Release {
    Release {
        major: version.major(),
        minor: version.minor(),
        patch: version.patch(),
    }
}
