// Made by tools/erase.py from crates/tool_ranges/src/range_operations.rt; not edited by hand.
//! Set operations on ranges with the same meaning, comparisons, and hashes.

use crate::rattle_std::prelude::*;
use crate::proved::tool_ranges::version_range::VersionRange;
use crate::rattle_std::hash::{Hash, Hasher};
use crate::proved::version_sets::{Combination, OperationError};

impl VersionRange {
    /// Returns the union, the intersection or the difference of two ranges with the same meaning.
    ///
    /// # Errors
    ///
    /// `DifferentMeanings` if the ranges differ in their dialects, or in which pre-releases count;
    /// `OutOfMemory` if an allocation failed.
    pub(crate) fn combined(
        &self,
        how: Combination,
        other: &VersionRange,
    ) -> Result<VersionRange, OperationError> {
        if self.meaning != other.meaning {
            return Err(OperationError::DifferentMeanings);
        }
        let versions = self.versions.combined(how, &other.versions)?;
        Ok(VersionRange {
            versions,
            meaning: self.meaning,
        })
    }

    /// Returns whether the other range contains every version that this one does. Their meanings
    /// may differ. It does not allocate.
    ///
    /// # Errors
    ///
    /// Only `DifferentDigits`, if one range is in a dialect of the crate `semver-parser` and the
    /// other in Cargo's or npm's: a version with a numeric identifier above 2^64 - 1 isn't the same
    /// to both.
    pub(crate) fn is_subset_of(&self, other: &VersionRange) -> Result<bool, OperationError> {
        self.versions.is_subset(&other.versions)
    }

    /// Returns whether no version is in both ranges. Their meanings may differ. It does not
    /// allocate.
    ///
    /// # Errors
    ///
    /// The errors of [`VersionRange::is_subset_of`].
    pub(crate) fn is_disjoint_from(&self, other: &VersionRange) -> Result<bool, OperationError> {
        self.versions.is_disjoint(&other.versions)
    }
}

impl PartialEq for VersionRange {
    /// Returns whether both ranges have the same meaning and contain the same versions. It does not
    /// allocate.
    ///
    /// ```
    /// use semver_parser::{Dialect, VersionRange};
    ///
    /// let range = VersionRange::parse("^1.2", Dialect::Npm)?;
    /// assert!(range == VersionRange::parse(">=1.2.0 <2.0.0-0", Dialect::Npm)?);
    /// assert!(range != VersionRange::parse("^1.2", Dialect::Cargo)?);
    /// # Ok::<(), semver_parser::Error>(())
    /// ```
    fn eq(&self, other: &VersionRange) -> bool {
        self.meaning == other.meaning && self.versions == other.versions
    }
}

impl Eq for VersionRange {
}

impl Hash for VersionRange {
    /// Hashes the rules, the boundaries of the releases, and the three numbers of each boundary of
    /// the pre-releases.
    fn hash<H: Hasher>(&self, state: &mut H) {
        self.meaning.hash(state);
        self.versions.hash(state);
    }
}
