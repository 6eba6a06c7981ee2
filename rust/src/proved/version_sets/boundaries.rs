// Made by tools/erase.py from crates/version_sets/src/boundaries.rt; not edited by hand.
//! Lists of boundaries: whether a version is inside, and whether two lists are equal.

use crate::rattle_std::prelude::*;
use crate::proved::version_sets::boundary::Boundary;
use crate::proved::version_sets::release::Release;
use crate::proved::semver_texts::grammar::Digits;
use crate::proved::semver_versions::read_version::ReadVersion;
use crate::proved::semver_versions::version::{Version, VersionRef};

/// Returns whether an odd number of the boundaries are at or below a boundary's version. It takes
/// time logarithmic in their number, and does not allocate.
pub(crate) fn contains<T: Boundary>(boundaries: &[T], place: &T) -> bool {
    is_odd(boundaries.partition_point(|boundary| boundary.compare(place).is_le()))
}

/// Returns whether an odd number of the boundaries are at or below a version, whose numeric
/// identifiers are read as `digits` says. It takes time logarithmic in their number, and does not
/// allocate.
pub(crate) fn contains_version(
    boundaries: &[ReadVersion],
    version: &Version,
    digits: Digits,
) -> bool {
    is_odd(boundaries.partition_point(|boundary| boundary.compare_version(version, digits).is_le()))
}

/// Up to this number, boundaries of releases are compared one by one, which is faster than a binary
/// search.
const FEW: usize = 8;

/// Returns whether an odd number of the boundaries are at or below a release. It takes time
/// logarithmic in their number, and does not allocate.
#[inline(always)]
pub(crate) fn contains_release(boundaries: &[Release], release: &Release) -> bool {
    if boundaries.len() > FEW {
        return contains(boundaries, release);
    }
    let mut is_in = false;
    for boundary in boundaries {
        is_in ^= !release.is_below(boundary);
    }
    is_in
}

/// Returns whether an odd number of the boundaries are at or below a borrowed version, whose
/// numeric identifiers are read as `digits` says. It takes time logarithmic in their number, and
/// does not allocate.
#[inline(always)]
pub(crate) fn contains_ref(
    boundaries: &[ReadVersion],
    borrowed: &VersionRef<'_>,
    digits: Digits,
) -> bool {
    let mut low = 0;
    let mut high = boundaries.len();
    while low < high {
        let middle = low + (high - low) / 2;
        if boundaries[middle].compared_ref(borrowed, digits).is_ge() {
            low = middle + 1;
        } else {
            high = middle;
        }
    }
    is_odd(low)
}

/// Returns whether a number is odd.
fn is_odd(number: usize) -> bool {
    number % 2 == 1
}

/// Returns whether two lists have the same boundaries. It does not allocate.
pub(crate) fn are_same<T: Boundary>(boundaries: &[T], others: &[T]) -> bool {
    boundaries.len() == others.len()
        && boundaries
            .iter()
            .zip(others)
            .all(|(boundary, other)| boundary.compare(other).is_eq())
}
