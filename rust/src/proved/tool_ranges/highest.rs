// Made by tools/erase.py from crates/tool_ranges/src/highest.rt; not edited by hand.
//! Finds the highest or the lowest of many versions that a range contains.

use crate::rattle_std::prelude::*;
use crate::proved::tool_ranges::version_range::VersionRange;
use crate::proved::semver_texts::grammar::Digits;
use crate::proved::semver_versions::placed::PlacedVersion;
use crate::proved::semver_versions::version::{Version, VersionRef, compare_by, read_ref_in};
use crate::rattle_std::cmp::Ordering;

/// Which of many versions is wanted.
#[derive(Clone, Copy, PartialEq, Eq, Debug)]
pub enum Extreme {
    /// The highest version by precedence (SemVer 2.0.0, section 11).
    Highest,
    /// The lowest version by precedence.
    Lowest,
}

impl VersionRange {
    /// Returns the index of the highest or the lowest of the given versions that the range
    /// contains, or `None` if it contains none of them. Versions are compared by precedence (SemVer
    /// 2.0.0, section 11), and the first of equal versions is chosen. Strings that are invalid
    /// versions in the range's dialect are skipped. It does not allocate.
    #[must_use]
    pub(crate) fn extreme_index(&self, which: Extreme, versions: &[&[u8]]) -> Option<usize> {
        let mut found = 0;
        let mut best: Option<VersionRef<'_>> = None;
        for at in 0..versions.len() {
            let Some(borrowed) = member(self, versions[at]) else {
                continue;
            };
            if is_above(&borrowed, &best, which) {
                best = Some(borrowed);
                found = at;
            }
        }
        match best {
            Some(_) => Some(found),
            None => None,
        }
    }

    /// Returns the version of a string without the string, or `None` if it is invalid in the
    /// range's dialect, or the range doesn't contain it. It does not allocate.
    #[must_use]
    #[inline(always)]
    pub(crate) fn member(&self, version: &str) -> Option<PlacedVersion> {
        match member(self, version.as_bytes()) {
            Some(borrowed) => Some(borrowed.placed()),
            None => None,
        }
    }

    /// Compares two members of the range by precedence, so that the wanted one comes first. Each is
    /// followed by the string that it was read from. It does not allocate.
    #[must_use]
    #[inline(always)]
    pub(crate) fn compare_members(
        &self,
        which: Extreme,
        version: &PlacedVersion,
        string: &str,
        other: &PlacedVersion,
        other_string: &str,
    ) -> Ordering {
        let version = version.within(string.as_bytes());
        let other = other.within(other_string.as_bytes());
        match which {
            Extreme::Highest => other.compare(&version),
            Extreme::Lowest => version.compare(&other),
        }
    }

    /// Compares two versions by precedence, so that the wanted one comes first. Their numeric
    /// identifiers are read as in the range's dialect. It does not allocate.
    #[must_use]
    #[inline(always)]
    pub(crate) fn compare_refs(
        &self,
        which: Extreme,
        version: &VersionRef<'_>,
        other: &VersionRef<'_>,
    ) -> Ordering {
        let digits = self.digits();
        let (version, other) = (version.read_by(digits), other.read_by(digits));
        match which {
            Extreme::Highest => other.compare(&version),
            Extreme::Lowest => version.compare(&other),
        }
    }

    /// Returns the result of [`VersionRange::compare_refs`] for versions with strings of their own.
    #[must_use]
    #[inline(always)]
    pub(crate) fn compare_owned(
        &self,
        which: Extreme,
        version: &crate::proved::semver_versions::owned::Version,
        other: &crate::proved::semver_versions::owned::Version,
    ) -> Ordering {
        self.compare_refs(which, &version.as_version_ref(), &other.as_version_ref())
    }

    /// Compares two versions like [`VersionRange::compare_refs`].
    #[must_use]
    #[inline(always)]
    pub(crate) fn compare_versions(&self, which: Extreme, version: &Version, other: &Version) -> Ordering {
        let digits = self.digits();
        match which {
            Extreme::Highest => compare_by(digits, other, version),
            Extreme::Lowest => compare_by(digits, version, other),
        }
    }

    /// Returns whether the range contains a version with strings of its own, like
    /// [`VersionRange::contains_ref`].
    #[must_use]
    #[inline(always)]
    pub(crate) fn contains_owned(&self, version: &crate::proved::semver_versions::owned::Version) -> bool {
        self.contains_ref(&version.as_version_ref())
    }

    /// Returns how numeric identifiers are read in the range's dialect.
    #[inline(always)]
    fn digits(&self) -> Digits {
        self.meaning.dialect.grammar().digits()
    }
}

/// Returns a string as a borrowed version, if it is one that a range contains.
#[inline(always)]
fn member<'t>(range: &VersionRange, version: &'t [u8]) -> Option<VersionRef<'t>> {
    let borrowed = read_ref_in(version, range.meaning.dialect.grammar())?;
    if !range.contains_ref(&borrowed) {
        return None;
    }
    Some(borrowed)
}

/// Returns whether a version is above the best one so far, or below it if the lowest is wanted. It
/// is true if there is no best one yet.
fn is_above(version: &VersionRef<'_>, best: &Option<VersionRef<'_>>, which: Extreme) -> bool {
    let Some(best) = best else {
        return true;
    };
    match which {
        Extreme::Highest => best.compare(version).is_lt(),
        Extreme::Lowest => version.compare(best).is_lt(),
    }
}
