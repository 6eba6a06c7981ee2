// Made by tools/erase.py from crates/version_sets/src/version_set.rt; not edited by hand.
//! Sets of versions, and which versions are in them.

use crate::rattle_std::prelude::*;
use crate::proved::version_sets::conjunction::{Conjunction, Ranges};
use crate::proved::version_sets::release::Release;
use crate::proved::version_sets::{batch, boundaries};
use crate::proved::semver_texts::grammar::Digits;
use crate::proved::semver_versions::read_version::ReadVersion;
use crate::proved::semver_versions::version::{Version, VersionRef};
use crate::rattle_std::AllocError;

/// A set of versions in a normal form: one list of boundaries for releases and one for
/// pre-releases, each in ascending order of precedence (SemVer 2.0.0, section 11). A version is in
/// the set if and only if an odd number of the boundaries of its kind are at or below it. Its build
/// metadata is ignored.
///
/// A set also knows what a numeric identifier above 2^64 - 1 is: a number, as in the dialects of
/// Cargo and npm, or a string, as in those of the crate `semver-parser`. Sets that differ in this
/// can't be combined or compared.
///
/// The releases of `>=1.2.0 <2.0.0 || 3.1.4` have the boundaries 1.2.0, 2.0.0, 3.1.4 and 3.1.5.
#[derive(Debug)]
#[derive(Clone)]
pub struct VersionSet {
    /// The boundaries of the releases.
    pub(crate) releases: Vec<Release>,
    /// The boundaries of the pre-releases. Each has a pre-release.
    pub(crate) pre_releases: Vec<ReadVersion>,
    /// How numeric identifiers are read.
    pub(crate) digits: Digits,
}

impl VersionSet {
    /// Returns the empty set, for versions whose numeric identifiers are read as `digits` says. It
    /// does not allocate.
    #[must_use]
    pub fn empty(digits: Digits) -> VersionSet {
        VersionSet::of_boundaries(digits, Vec::new(), Vec::new())
    }

    /// Returns the set of all versions, whose numeric identifiers are read as `digits` says. `Err`
    /// means out of memory.
    pub fn all(digits: Digits) -> Result<VersionSet, AllocError> {
        let all = Conjunction::new();
        let mut ranges = Ranges::new();
        ranges.push_pre_releases(&all)?;
        ranges.into_set(&all, digits)
    }

    /// Returns the set with these boundaries, which are in the normal form. It does not allocate.
    pub(crate) fn of_boundaries(
        digits: Digits,
        releases: Vec<Release>,
        pre_releases: Vec<ReadVersion>,
    ) -> VersionSet {
        VersionSet {
            releases,
            pre_releases,
            digits,
        }
    }

    /// Returns how a numeric identifier above 2^64 - 1 is read, in the versions of the set.
    #[must_use]
    pub fn digits(&self) -> Digits {
        self.digits
    }

    /// Returns the releases of the set. It does not allocate.
    #[must_use]
    pub fn only_releases(self) -> VersionSet {
        VersionSet::of_boundaries(self.digits, self.releases, Vec::new())
    }

    /// Returns the pre-releases of the set. It does not allocate.
    #[must_use]
    pub fn only_pre_releases(self) -> VersionSet {
        VersionSet::of_boundaries(self.digits, Vec::new(), self.pre_releases)
    }

    /// Returns whether a version is in the set. Its build metadata is ignored. It takes time
    /// logarithmic in the number of boundaries, and does not allocate.
    ///
    /// A `Version` keeps a numeric identifier above 2^64 - 1 as a string; here it is read as the
    /// set reads such identifiers.
    #[must_use]
    pub fn contains(&self, version: &Version) -> bool {
        let release = Release::from_version(version);
        let is_release = version.pre.is_empty();
        if self.pre_releases.is_empty() {
            // Evaluates both sides, so the result doesn't depend on a branch.
            return is_release & self.contains_release(release);
        }
        if is_release {
            return self.contains_release(release);
        }
        boundaries::contains_version(&self.pre_releases, version, self.digits)
    }

    /// Writes to `answers`, for each version, whether it is in the set, like
    /// [`VersionSet::contains`]. It is faster for many versions: if the set contains no pre-release
    /// and has at most two boundaries of releases, such as the set of `^1.2.0`, no answer depends
    /// on a branch. It does not allocate.
    ///
    /// `answers` must have the same length as `versions`. For 1.1.0, 1.9.0 and 2.0.0 and the set of
    /// `^1.2.0`, the answers are `false`, `true` and `false`.
    pub(crate) fn contains_each(&self, versions: &[Version], answers: &mut [bool]) {
        match self.releases.as_slice() {
            [from] if self.pre_releases.is_empty() => batch::is_release_between(
                *from, None, versions, answers,
            ),
            [from, to] if self.pre_releases.is_empty() => batch::is_release_between(
                *from,
                Some(*to),
                versions,
                answers,
            ),
            _ => batch::contains(self, versions, answers),
        }
    }

    /// Returns whether a release is in the set, like [`VersionSet::contains`] for a version.
    #[must_use]
    #[inline(always)]
    pub fn contains_release(&self, release: Release) -> bool {
        boundaries::contains_release(&self.releases, &release)
    }

    /// Returns whether a borrowed version is in the set, like [`VersionSet::contains`] for a
    /// version. Its identifiers are compared as they are in the string, and the numeric ones are
    /// read as the set reads them, whatever the dialect of the borrowed version. It does not
    /// allocate.
    #[must_use]
    #[inline(always)]
    pub fn contains_ref(&self, borrowed: &VersionRef<'_>) -> bool {
        if borrowed.is_pre_release() {
            return boundaries::contains_ref(&self.pre_releases, borrowed, self.digits);
        }
        self.contains_release(Release {
            major: borrowed.major(),
            minor: borrowed.minor(),
            patch: borrowed.patch(),
        })
    }
}
