// Made by tools/erase.py from crates/version_sets/src/boundary.rt; not edited by hand.
//! The trait of both kinds of boundaries: they have a position in the order of precedence.

use crate::rattle_std::prelude::*;
use crate::proved::version_sets::comparators::ComparatorRef;
use crate::proved::version_sets::release::{Release, next_numbers};
use crate::proved::semver_ranges::Op;
use crate::proved::semver_texts::grammar::Digits;
use crate::rattle_std::AllocError;
use crate::rattle_std::cmp::Ordering;

/// A boundary of a set: from its position on, versions of its kind are in the set, or no longer
/// are.
pub(crate) trait Boundary: Sized {
    /// Compares two boundaries by precedence.
    fn compare(&self, other: &Self) -> Ordering;

    /// Returns a boundary at the same position. `Err` means out of memory.
    fn at_same_place(&self) -> Result<Self, AllocError>;

    /// Returns the three numbers of its version.
    fn numbers(&self) -> Release;

    /// Returns whether its version has no pre-release, or only the lowest, `0`.
    fn has_lowest_pre(&self) -> bool;

    /// Returns whether the boundary's version is the only one of its kind that is at or above it
    /// and below `to`, if `to` is given.
    fn is_alone(&self, to: Option<&Self>) -> bool;

    /// Returns the comparator with an operator and the boundary's version.
    fn comparator<'a>(&'a self, op: Op) -> ComparatorRef<'a>;

    /// Returns the upper comparator of the interval from this boundary up to another.
    fn upper_comparator<'a>(&self, to: &'a Self) -> ComparatorRef<'a>;
}

impl Boundary for Release {
    fn compare(&self, other: &Release) -> Ordering {
        self.cmp(other)
    }

    /// Copies the numbers. It does not allocate.
    fn at_same_place(&self) -> Result<Release, AllocError> {
        Ok(*self)
    }

    fn numbers(&self) -> Release {
        *self
    }

    fn has_lowest_pre(&self) -> bool {
        true
    }

    fn is_alone(&self, to: Option<&Release>) -> bool {
        match (to, next_numbers(*self)) {
            (Some(to), Some(next)) => to.compare(&next).is_eq(),
            (None, None) => true,
            _ => false,
        }
    }

    fn comparator<'a>(&'a self, op: Op) -> ComparatorRef<'a> {
        ComparatorRef {
            op,
            numbers: *self,
            pre: &[],
            digits: Digits::Kept,
        }
    }

    fn upper_comparator<'a>(&self, to: &'a Release) -> ComparatorRef<'a> {
        to.comparator(Op::Lt)
    }
}
