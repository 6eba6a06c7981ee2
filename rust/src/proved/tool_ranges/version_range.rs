// Made by tools/erase.py from crates/tool_ranges/src/version_range.rt; not edited by hand.
//! A range that was read: a set of versions, and the meaning with which it was read.

use crate::rattle_std::prelude::*;
use crate::proved::tool_ranges::meaning::{self, Rules};
use crate::proved::tool_ranges::satisfying::SatisfiesError;
use crate::proved::semver_ranges::RangeError;
use crate::proved::semver_ranges::table::limit;
use crate::proved::semver_versions::owned;
use crate::proved::semver_versions::version::{Version, VersionRef, read_ref_in};
use crate::rattle_std::AllocError;
use crate::rattle_std::fmt;
use crate::proved::version_sets::{OperationError, VersionSet};

/// A range that was read: the versions that it contains, and the rules by which it was read. Two
/// ranges are equal if both of these are.
///
/// ```
/// use semver_parser::{Dialect, VersionRange};
///
/// let old = VersionRange::parse("^1.2", Dialect::Cargo)?;
/// let new = VersionRange::parse(">=1.2.1, <1.9", Dialect::Cargo)?;
/// assert!(new.is_subset(&old)? && old.contains("1.2.0")?);
/// assert_eq!((&old - &new).to_string(), "=1.2.0 || >=1.9.0, <2.0.0");
/// # Ok::<(), semver_parser::Error>(())
/// ```
#[derive(Clone)]
pub struct VersionRange {
    pub(crate) versions: VersionSet,
    pub(crate) meaning: Rules,
}

impl VersionRange {
    /// Reads a range string.
    ///
    /// # Errors
    ///
    /// - `NotARange` if the string is not a range in the dialect.
    /// - `NumberTooLarge` if it is a range, but one of its numbers, or a bound that is raised by
    ///   one, is above 2^64 - 1, or above 2^53 - 1 in npm's dialect.
    /// - `OutOfMemory` if an allocation failed. The first two errors are returned without
    ///   allocating.
    #[inline(always)]
    pub(crate) fn try_parse(range: &str, meaning: Rules) -> Result<VersionRange, RangeError> {
        let versions = meaning::read(meaning, range)?;
        Ok(VersionRange { versions, meaning })
    }

    /// Returns the lowest version of the dialect that the range contains, without build metadata,
    /// or `None` if and only if it contains none. A version of npm's dialect has no number above
    /// 2^53 - 1, so the lowest one in `>1.2.9007199254740991` is 1.3.0.
    ///
    /// It allocates only if the result is a pre-release. `Err` means out of memory.
    pub(crate) fn try_lowest_version(&self) -> Result<Option<Version>, AllocError> {
        self.versions
            .lowest_within(limit(self.meaning.dialect))
    }

    /// Returns the result of [`VersionRange::lowest_version`] as a version that owns its strings.
    /// `Err` means out of memory.
    pub(crate) fn lowest_owned(&self) -> Result<Option<owned::Version>, AllocError> {
        let Some(lowest) = self.try_lowest_version()? else {
            return Ok(None);
        };
        Ok(Some(owned::Version::of_plain(&lowest)?))
    }

    /// Returns the range that contains the versions of a set.
    ///
    /// # Errors
    ///
    /// Only `DifferentDigits`, if the set reads numeric identifiers differently than the dialect.
    pub(crate) fn from_versions(
        versions: VersionSet,
        meaning: Rules,
    ) -> Result<VersionRange, OperationError> {
        if versions.digits() != meaning.dialect.grammar().digits() {
            return Err(OperationError::DifferentDigits);
        }
        Ok(VersionRange { versions, meaning })
    }

    /// Returns the rules by which the range was read.
    ///
    /// ```
    /// use semver_parser::{Dialect, PreReleases, VersionRange};
    ///
    /// let range = VersionRange::parse("^1.2", Dialect::Npm)?;
    /// assert_eq!(range.rules(), Dialect::Npm.with(PreReleases::ByDialect));
    /// # Ok::<(), semver_parser::Error>(())
    /// ```
    #[must_use]
    #[inline(always)]
    pub fn rules(&self) -> Rules {
        self.meaning
    }

    /// Returns the set of the versions that the range contains.
    #[must_use]
    #[inline(always)]
    pub(crate) fn versions(&self) -> &VersionSet {
        &self.versions
    }

    /// Returns whether the range contains a version, which is read in the range's dialect. Build
    /// metadata is ignored. It does not allocate.
    ///
    /// # Errors
    ///
    /// `InvalidVersion` if the version is invalid in the dialect.
    #[inline(always)]
    pub(crate) fn try_contains_bytes(&self, version: &[u8]) -> Result<bool, SatisfiesError> {
        match read_ref_in(version, self.meaning.dialect.grammar()) {
            Some(borrowed) => Ok(self.contains_ref(&borrowed)),
            None => Err(SatisfiesError::InvalidVersion),
        }
    }

    /// Returns whether the range contains a borrowed version. Its numeric identifiers are read as
    /// in the range's dialect. It does not allocate.
    #[must_use]
    #[inline(always)]
    pub(crate) fn contains_ref(&self, version: &VersionRef<'_>) -> bool {
        self.versions.contains_ref(version)
    }

    /// Returns whether the range contains a version. Build metadata is ignored. A `Version` keeps a
    /// numeric identifier above 2^64 - 1 as a string; in Cargo's and npm's dialects it is compared
    /// as a number. It does not allocate.
    #[must_use]
    pub(crate) fn contains_version(&self, version: &Version) -> bool {
        self.versions.contains(version)
    }

    /// Returns whether the range contains no version.
    ///
    /// ```
    /// use semver_parser::{Dialect, VersionRange};
    ///
    /// assert!(VersionRange::parse(">2.0.0 <1.0.0", Dialect::Npm)?.is_empty());
    /// # Ok::<(), semver_parser::Error>(())
    /// ```
    #[must_use]
    pub fn is_empty(&self) -> bool {
        self.versions.is_empty()
    }
}

impl fmt::Display for VersionRange {
    /// Writes the range in the syntax of its dialect: a comma separates the comparators of Cargo's,
    /// and a space those of the others. First come the releases that it contains, or `<0.0.0-0` if
    /// it contains no version. If it contains pre-releases, they follow after `, pre-releases `, as
    /// a range that is to be compared by precedence. If it contains only pre-releases, the first
    /// comma is missing. It does not allocate, and its only error is the writer's.
    ///
    /// This is for people. It doesn't read back if the range contains pre-releases, or if there is
    /// `||` in Cargo's dialect. To write a range into a manifest, use
    /// [`VersionRange::to_requirement`].
    ///
    /// ```
    /// use semver_parser::{Dialect, VersionRange};
    ///
    /// let shown = |range| VersionRange::parse(range, Dialect::Npm).unwrap().to_string();
    /// assert_eq!(shown("1.2.0 || ~1.9"), "=1.2.0 || >=1.9.0 <1.10.0");
    /// assert_eq!(shown("^1.2.3-b"), ">=1.2.3 <2.0.0, pre-releases >=1.2.3-b <1.2.3");
    /// let cargo = VersionRange::parse("1.2", Dialect::Cargo)?;
    /// assert_eq!(cargo.to_string(), ">=1.2.0, <2.0.0");
    /// # Ok::<(), semver_parser::Error>(())
    /// ```
    fn fmt(&self, f: &mut fmt::Formatter<'_>) -> fmt::Result {
        self.versions.write_joined(f, self.meaning.dialect.joint())
    }
}

impl fmt::Debug for VersionRange {
    /// Writes what `Display` writes, and the rules.
    fn fmt(&self, f: &mut fmt::Formatter<'_>) -> fmt::Result {
        let rules = self.meaning;
        write!(f, "VersionRange({self}, {rules:?})")
    }
}
