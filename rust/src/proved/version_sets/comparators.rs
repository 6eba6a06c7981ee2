// Made by tools/erase.py from crates/version_sets/src/comparators.rt; not edited by hand.
//! The comparators of a set: one range for each interval between its boundaries.

use crate::rattle_std::prelude::*;
use crate::proved::version_sets::boundary::Boundary;
use crate::proved::version_sets::release::Release;
use crate::proved::semver_ranges::{Comparator, Compat, Identifier, Op, Range};
use crate::proved::semver_texts::grammar::Digits;
use crate::proved::semver_versions::version;
use crate::rattle_std::AllocError;

/// A comparator of a boundary, whose identifiers are borrowed from it.
pub(crate) struct ComparatorRef<'a> {
    pub(crate) op: Op,
    pub(crate) numbers: Release,
    pub(crate) pre: &'a [version::Identifier],
    pub(crate) digits: Digits,
}

impl ComparatorRef<'_> {
    /// Returns the comparator with identifiers that it owns. `Err` means out of memory.
    fn owned(self) -> Result<Comparator, AllocError> {
        Ok(Comparator {
            op: self.op,
            major: self.numbers.major,
            minor: self.numbers.minor,
            patch: self.numbers.patch,
            pre: copied(self.pre, self.digits)?,
        })
    }
}

/// Returns whether a boundary is at the lowest version of its kind.
pub(crate) fn is_lowest<T: Boundary>(boundary: &T) -> bool {
    let numbers = boundary.numbers();
    numbers.major == 0 && numbers.minor == 0 && numbers.patch == 0 && boundary.has_lowest_pre()
}

/// Copies identifiers of a version, read as `digits` says, as identifiers of a range. `Err` means
/// out of memory.
fn copied(
    identifiers: &[version::Identifier],
    digits: Digits,
) -> Result<Vec<Identifier>, AllocError> {
    let mut copies = Vec::fallible_with_capacity(identifiers.len())?;
    for identifier in identifiers {
        copies.fallible_push(copy_of(identifier, digits)?)?;
    }
    Ok(copies)
}

/// Copies an identifier of a version, read as `digits` says, as one of a range. `Err` means out of
/// memory.
fn copy_of(identifier: &version::Identifier, digits: Digits) -> Result<Identifier, AllocError> {
    let _digits = digits;
    match identifier {
        version::Identifier::Numeric(number) => Ok(Identifier::Numeric(*number)),
        version::Identifier::AlphaNumeric(text) => Ok(Identifier::AlphaNumeric(text.fallible_clone()?)),
    }
}

/// The one or two comparators of an interval.
pub(crate) struct IntervalComparators<'a> {
    pub(crate) first: ComparatorRef<'a>,
    pub(crate) second: Option<ComparatorRef<'a>>,
}

/// Returns the comparators of the versions that are at or above one boundary, and below another if
/// it is given. No version is below the lowest.
fn comparators_between<'a, T: Boundary>(from: &'a T, to: Option<&'a T>) -> IntervalComparators<'a> {
    if from.is_alone(to) {
        return IntervalComparators {
            first: from.comparator(Op::Eq),
            second: None,
        };
    }
    match to {
        None => IntervalComparators {
            first: from.comparator(Op::Gte),
            second: None,
        },
        Some(to) if is_lowest(from) => IntervalComparators {
            first: from.upper_comparator(to),
            second: None,
        },
        Some(to) => IntervalComparators {
            first: from.comparator(Op::Gte),
            second: Some(from.upper_comparator(to)),
        },
    }
}

/// Returns the first interval of boundaries, and the boundaries that follow it, or `None` if there
/// is no boundary.
pub(crate) fn first_interval<'a, T: Boundary>(
    boundaries: &'a [T],
) -> Option<(IntervalComparators<'a>, &'a [T])> {
    match boundaries {
        [] => None,
        [from] => Some((comparators_between(from, None), &[])),
        [from, to, others @ ..] => Some((comparators_between(from, Some(to)), others)),
    }
}

impl IntervalComparators<'_> {
    /// Returns the interval as a range of comparators. `Err` means out of memory.
    fn range(self) -> Result<Range, AllocError> {
        let first = self.first.owned()?;
        let comparator_set = match self.second {
            None => crate::rattle_std::fallible_vec![first]?,
            Some(second) => crate::rattle_std::fallible_vec![first, second.owned()?]?,
        };
        Ok(Range {
            comparator_set,
            compat: Compat::Npm,
        })
    }
}

/// Returns the ranges of increasing boundaries in npm mode, one for each interval. It allocates
/// only if there is a boundary. `Err` means out of memory.
pub(crate) fn ranges_of<T: Boundary>(
    boundaries: &[T],
) -> Result<Vec<Range>, AllocError> {
    let mut ranges = Vec::new();
    let mut left = boundaries;
    while let Some((first, others)) = first_interval(left) {
        ranges.fallible_push(first.range()?)?;
        left = others;
    }
    Ok(ranges)
}
