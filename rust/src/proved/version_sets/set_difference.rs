// Made by tools/erase.py from crates/version_sets/src/set_difference.rt; not edited by hand.
//! Compares two sets: what is lost, gained and shared, and whether one is a subset of the other,
//! disjoint from it, or equal to it.

use crate::rattle_std::prelude::*;
use crate::proved::version_sets::boundaries::are_same;
use crate::proved::version_sets::lowest::lower;
use crate::proved::version_sets::set_operations::{Combination, OperationError};
use crate::proved::version_sets::version_set::VersionSet;
use crate::proved::version_sets::within::First;
use crate::proved::semver_versions::version::Version;
use crate::rattle_std::AllocError;

/// The difference of an old and a new set, and their intersection, each represented by its lowest
/// version by precedence. None of these has build metadata.
#[derive(Debug, PartialEq, Eq)]
pub struct Comparison {
    /// The lowest version that is in the old set and not in the new one, or `None` if there is
    /// none.
    pub lost: Option<Version>,
    /// The lowest version that is in the new set and not in the old one, or `None` if there is
    /// none.
    pub gained: Option<Version>,
    /// The lowest version that is in both sets, or `None` if there is none.
    pub shared: Option<Version>,
}

impl VersionSet {
    /// Compares the set with a new one that is to replace it. It takes time linear in the number of
    /// their boundaries.
    ///
    /// Both sets contain the same versions if and only if nothing is lost or gained.
    ///
    /// It allocates only for the identifiers of pre-releases that it returns.
    ///
    /// # Errors
    ///
    /// `DifferentDigits` if the sets read numeric identifiers differently, and `OutOfMemory` if an
    /// allocation failed.
    pub fn compare(&self, new: &VersionSet) -> Result<Comparison, OperationError> {
        if self.digits != new.digits {
            return Err(OperationError::DifferentDigits);
        }
        Ok(Comparison {
            lost: self.lowest_combined(Combination::Difference, new)?,
            gained: new.lowest_combined(Combination::Difference, self)?,
            shared: self.lowest_combined(Combination::Intersection, new)?,
        })
    }

    /// Returns the lowest version of a combination. `Err` means out of memory.
    fn lowest_combined(
        &self,
        how: Combination,
        other: &VersionSet,
    ) -> Result<Option<Version>, AllocError> {
        let release = how.first(&self.releases, &other.releases);
        let pre_release = how.first(&self.pre_releases, &other.pre_releases);
        lower(First::at(release), First::at(pre_release))
    }
}

impl VersionSet {
    /// Returns whether the set contains no version. It does not allocate.
    #[must_use]
    pub fn is_empty(&self) -> bool {
        self.releases.is_empty() && self.pre_releases.is_empty()
    }

    /// Returns whether every version in this set is in the other, too. It takes time linear in the
    /// number of their boundaries, and does not allocate.
    ///
    /// # Errors
    ///
    /// Only `DifferentDigits`, if the sets read numeric identifiers differently.
    pub fn is_subset(&self, other: &VersionSet) -> Result<bool, OperationError> {
        if self.digits != other.digits {
            return Err(OperationError::DifferentDigits);
        }
        Ok(!self.keeps_some(Combination::Difference, other))
    }

    /// Returns whether no version is in both sets. It takes time linear in the number of their
    /// boundaries, and does not allocate.
    ///
    /// # Errors
    ///
    /// Only `DifferentDigits`, if the sets read numeric identifiers differently.
    pub fn is_disjoint(&self, other: &VersionSet) -> Result<bool, OperationError> {
        if self.digits != other.digits {
            return Err(OperationError::DifferentDigits);
        }
        Ok(!self.keeps_some(Combination::Intersection, other))
    }

    /// Returns whether a combination of two sets contains a version.
    fn keeps_some(&self, how: Combination, other: &VersionSet) -> bool {
        how.keeps_some(&self.releases, &other.releases)
            || how.keeps_some(&self.pre_releases, &other.pre_releases)
    }
}

impl PartialEq for VersionSet {
    /// Returns whether both sets read numeric identifiers in the same way, and contain the same
    /// versions. It takes time linear in the number of their boundaries, and does not allocate.
    ///
    /// The sets of `>=1.0.0 <2.0.0 || >=2.0.0 <3.0.0` and of `>=1.0.0 <3.0.0` are equal.
    fn eq(&self, other: &VersionSet) -> bool {
        if self.digits != other.digits {
            return false;
        }
        are_same(&self.releases, &other.releases)
            && are_same(&self.pre_releases, &other.pre_releases)
    }
}

impl Eq for VersionSet {
}
