// Made by tools/erase.py from crates/version_sets/src/set_operations.rt; not edited by hand.
//! Union, intersection and difference of sets.

use crate::rattle_std::prelude::*;
use crate::proved::version_sets::boundary::Boundary;
use crate::proved::version_sets::sweep::Sweep;
use crate::proved::version_sets::version_set::VersionSet;
use crate::rattle_std::AllocError;

/// The error of an operation on two ranges or two sets of versions.
#[derive(Clone, Copy, PartialEq, Eq, Debug)]
#[non_exhaustive]
pub enum OperationError {
    /// The ranges differ in their dialects, or in which pre-releases count. No operation on sets
    /// returns it.
    DifferentMeanings,
    /// The dialects read numeric identifiers above 2^64 - 1 differently: to Cargo and npm they are
    /// numbers, and to the crate `semver-parser` they are alphanumerics.
    DifferentDigits,
    /// An allocation failed.
    OutOfMemory,
}

impl crate::rattle_std::fmt::Display for OperationError {
    fn fmt(&self, f: &mut crate::rattle_std::fmt::Formatter<'_>) -> crate::rattle_std::fmt::Result {
        match self {
            OperationError::DifferentMeanings => write!(f, "the ranges have different meanings"),
            OperationError::DifferentDigits => write!(f, "the ranges read numbers from 2^64 on differently"),
            OperationError::OutOfMemory => write!(f, "out of memory"),
        }
    }
}

#[cfg(feature = "std")]
impl crate::rattle_std::Error for OperationError {}

impl From<AllocError> for OperationError {
    fn from(_error: AllocError) -> OperationError {
        OperationError::OutOfMemory
    }
}

/// How two ranges or two sets of versions are combined.
#[derive(Clone, Copy, PartialEq, Eq, Debug)]
pub enum Combination {
    /// The versions that are in the first or in the second, or in both.
    Union,
    /// The versions that are in both.
    Intersection,
    /// The versions that are in the first and not in the second.
    Difference,
}

impl Combination {
    /// Returns whether a version is in the combination, given whether it is in each set.
    fn keeps(self, in_first: bool, in_second: bool) -> bool {
        match self {
            Combination::Union => in_first || in_second,
            Combination::Intersection => in_first && in_second,
            Combination::Difference => in_first && !in_second,
        }
    }

    /// Returns whether some piece of two sets is in the combination. It does not allocate.
    pub(crate) fn keeps_some<T: Boundary>(self, first: &[T], second: &[T]) -> bool {
        Sweep::over(first, second).any(|piece| self.keeps(piece.in_first, piece.in_second))
    }

    /// Returns the first boundary of the combination: the beginning of the first piece in it. It
    /// does not allocate.
    pub(crate) fn first<'a, T: Boundary>(self, first: &'a [T], second: &'a [T]) -> Option<&'a T> {
        for piece in Sweep::over(first, second) {
            if self.keeps(piece.in_first, piece.in_second) {
                return Some(piece.from);
            }
        }
        None
    }

    /// Returns the boundaries of the combination. These are the boundaries at which a version
    /// begins or ceases to be in it. Nothing is allocated if there are none. `Err` means out of
    /// memory.
    pub(crate) fn of<T: Boundary>(
        self,
        first: &[T],
        second: &[T],
    ) -> Result<Vec<T>, AllocError> {
        let mut boundaries = Vec::new();
        let mut is_kept = false;
        for piece in Sweep::over(first, second) {
            if self.keeps(piece.in_first, piece.in_second) != is_kept {
                boundaries.fallible_push(piece.from.at_same_place()?)?;
                is_kept = !is_kept;
            }
        }
        Ok(boundaries)
    }
}

impl VersionSet {
    /// Returns the union, the intersection or the difference of two sets. It takes time linear in
    /// the number of their boundaries.
    ///
    /// The result is allocated as it grows, and not at all if it is empty.
    ///
    /// # Errors
    ///
    /// `DifferentDigits` if the sets read numeric identifiers differently, and `OutOfMemory` if an
    /// allocation failed.
    pub fn combined(
        &self,
        how: Combination,
        other: &VersionSet,
    ) -> Result<VersionSet, OperationError> {
        if self.digits != other.digits {
            return Err(OperationError::DifferentDigits);
        }
        let releases = how.of(&self.releases, &other.releases)?;
        let pre_releases = how.of(&self.pre_releases, &other.pre_releases)?;
        Ok(VersionSet::of_boundaries(self.digits, releases, pre_releases))
    }
}
