//! Sets of versions.

use super::Ending;
use crate::proved::semver_parser::{version, RangeError};
use crate::proved::semver_texts::grammar::Digits;
use crate::proved::semver_ranges::dialect::Dialect;
use crate::proved::tool_ranges::meaning::{self, Rules};
use crate::proved::version_sets::{Combination, PreReleases, SetRanges, VersionSet};
use crate::rattle_std::AllocError;

/// Returns the meaning of a dialect with the pre-releases that count by default.
fn by_default(dialect: Dialect) -> Rules {
    Rules { dialect, pre_releases: PreReleases::ByDialect }
}

/// Returns the meaning of a dialect with each pre-release within the bounds.
fn within(dialect: Dialect) -> Rules {
    Rules { dialect, pre_releases: PreReleases::Included }
}

/// Returns the sets for the calls below: that of `>=1.2.0-b.c` by default, and that of `<2.0.0`
/// with all pre-releases.
pub fn of_texts() -> Result<(VersionSet, VersionSet), Ending> {
    let first = set_of(">=1.2.0-b.c", by_default(Dialect::CrateNpm))?;
    let second = set_of("<2.0.0", within(Dialect::CrateNpm))?;
    Ok((first, second))
}

/// Returns the set of a string.
fn set_of(text: &str, meaning: Rules) -> Result<VersionSet, Ending> {
    match meaning::read(meaning, text) {
        Ok(set) => Ok(set),
        Err(RangeError::OutOfMemory) => Err(Ending::Refused),
        Err(_) => Err(Ending::Wrong),
    }
}

/// Invalid strings give an error without a request.
pub fn of_refused_texts() -> Ending {
    let not_a_range = meaning::read(within(Dialect::CrateNpm), "|");
    let too_large = meaning::read(within(Dialect::CrateCargo), "<=18446744073709551615");
    Ending::full_if(
        matches!(not_a_range, Err(RangeError::NotARange))
            && matches!(too_large, Err(RangeError::NumberTooLarge)),
    )
}

/// Reads a requirement in Cargo's dialect into its set. Its term names 1.2.0, so the set contains
/// 1.2.0-c, and not 1.3.0-c.
pub fn of_requirement() -> Ending {
    match meaning::read(by_default(Dialect::Cargo), "^1.2, >=1.2.0-b") {
        Ok(set) => Ending::full_if(
            begins_at(&set, 1) && has_stated(&set, "1.2.0-c") && !has_stated(&set, "1.3.0-c"),
        ),
        Err(RangeError::OutOfMemory) => Ending::Refused,
        Err(_) => Ending::Wrong,
    }
}

/// Invalid requirements give an error without a request.
pub fn of_refused_requirements() -> Ending {
    let not_a_range = meaning::read(by_default(Dialect::Cargo), "1.2.3-a, >=1 <2");
    let too_large = meaning::read(by_default(Dialect::Cargo), "1.2.3-a, >1.18446744073709551615");
    Ending::full_if(
        matches!(not_a_range, Err(RangeError::NotARange))
            && matches!(too_large, Err(RangeError::NumberTooLarge)),
    )
}

/// Reads two ranges in npm's dialect into their sets. The first contains 1.2.0-c, and not 1.3.0-c.
/// The second contains every release.
pub fn of_npm_ranges() -> Ending {
    let asked = match meaning::read(by_default(Dialect::Npm), ">=0 >=1.2.0-b <1.5 || 3.x") {
        Ok(set) => set,
        Err(RangeError::OutOfMemory) => return Ending::Refused,
        Err(_) => return Ending::Wrong,
    };
    let is_stated = has_stated(&asked, "1.2.0-c") && !has_stated(&asked, "1.3.0-c");
    match meaning::read(by_default(Dialect::Npm), "1.2.0-b || *") {
        Ok(set) => Ending::full_if(
            is_stated && begins_at(&asked, 1) && begins_at(&set, 0) && !has_stated(&set, "1.2.0-b"),
        ),
        Err(RangeError::OutOfMemory) => Ending::Refused,
        Err(_) => Ending::Wrong,
    }
}

/// Invalid ranges of npm give an error without a request.
pub fn of_refused_npm_ranges() -> Ending {
    let not_a_range = meaning::read(by_default(Dialect::Npm), "1.2.3-a || >=1, <2");
    let too_large = meaning::read(by_default(Dialect::Npm), "1.2.3-a || >1.18446744073709551615");
    Ending::full_if(
        matches!(not_a_range, Err(RangeError::NotARange))
            && matches!(too_large, Err(RangeError::NumberTooLarge)),
    )
}

/// Reads a requirement and a range of npm into their sets with each pre-release within the bounds.
/// Both begin with a pre-release.
pub fn within_bounds() -> Ending {
    let requirement = match meaning::read(within(Dialect::Cargo), "^1.2, <1.5.0-b") {
        Ok(set) => set,
        Err(RangeError::OutOfMemory) => return Ending::Refused,
        Err(_) => return Ending::Wrong,
    };
    let is_begun = has_stated(&requirement, "1.2.0-a") && !has_stated(&requirement, "1.5.0-c");
    match meaning::read(within(Dialect::Npm), "1.2.3 - 2 || ~3.1") {
        Ok(set) => {
            Ending::full_if(is_begun && has_stated(&set, "1.2.3-a") && !has_stated(&set, "3.1.0-a"))
        }
        Err(RangeError::OutOfMemory) => Ending::Refused,
        Err(_) => Ending::Wrong,
    }
}

/// Invalid ones give an error without a request.
pub fn of_refused_bounds() -> Ending {
    let not_a_range = meaning::read(within(Dialect::Cargo), "1.2.3-a, >=1 <2");
    let no_npm_range = meaning::read(within(Dialect::Npm), "1.2 || >=1, <2");
    let bound = meaning::read(within(Dialect::Cargo), "1.2, >1.18446744073709551615");
    let too_large = meaning::read(within(Dialect::Npm), "1 - 1.18446744073709551615");
    Ending::full_if(
        matches!(not_a_range, Err(RangeError::NotARange))
            && matches!(no_npm_range, Err(RangeError::NotARange))
            && matches!(bound, Err(RangeError::NumberTooLarge))
            && matches!(too_large, Err(RangeError::NumberTooLarge)),
    )
}

/// The union contains both sets, and its lowest release is 0.0.0, which is in the second.
pub fn union(first: &VersionSet, second: &VersionSet) -> Ending {
    match first.combined(Combination::Union, second) {
        Ok(set) => {
            Ending::full_if(is_within(first, &set) && is_within(second, &set) && begins_at(&set, 0))
        }
        Err(_) => Ending::Refused,
    }
}

/// The intersection is a subset of both sets, and its lowest release is 1.2.0.
pub fn intersection(first: &VersionSet, second: &VersionSet) -> Ending {
    match first.combined(Combination::Intersection, second) {
        Ok(set) => {
            Ending::full_if(is_within(&set, first) && is_within(&set, second) && begins_at(&set, 1))
        }
        Err(_) => Ending::Refused,
    }
}

/// The difference of the second set and the first is a subset of the second, disjoint from the
/// first, and begins with 0.0.0.
pub fn difference(first: &VersionSet, second: &VersionSet) -> Ending {
    match second.combined(Combination::Difference, first) {
        Ok(set) => Ending::full_if(
            is_within(&set, second) && set.is_disjoint(first) == Ok(true) && begins_at(&set, 0),
        ),
        Err(_) => Ending::Refused,
    }
}

/// The set of all versions contains 0.0.0, and the first set is a subset of it.
pub fn all(first: &VersionSet) -> Ending {
    match VersionSet::all(first.digits()) {
        Ok(set) => Ending::full_if(contains(&set, "0.0.0") && is_within(first, &set)),
        Err(_) => Ending::Refused,
    }
}

/// The lowest version of the first set is 1.2.0-b.c.
pub fn lowest(first: &VersionSet) -> Ending {
    match first.lowest() {
        Ok(Some(lowest)) => Ending::full_if(lowest.minor == 2 && lowest.pre.len() == 2),
        Ok(None) => Ending::Wrong,
        Err(_) => Ending::Refused,
    }
}

/// From the first set to the second, 2.0.0 is lost, 0.0.0-0 is gained, and 1.2.0-b.c is shared.
pub fn compared(first: &VersionSet, second: &VersionSet) -> Ending {
    let Ok(answer) = first.compare(second) else {
        return Ending::Refused;
    };
    let is_lost = answer.lost.is_some_and(|lost| lost.major == 2);
    let is_gained = answer.gained.is_some_and(|gained| gained.major == 0 && gained.pre.len() == 1);
    let is_shared = answer.shared.is_some_and(|shared| shared.minor == 2 && shared.pre.len() == 2);
    Ending::full_if(is_lost && is_gained && is_shared)
}

/// The releases in the first set are `>=1.2.0`.
pub fn release_ranges(first: &VersionSet) -> Ending {
    match first.release_ranges() {
        Ok(ranges) => Ending::full_if(has_bounds(&ranges, 1)),
        Err(_) => Ending::Refused,
    }
}

/// The pre-releases in the first set are `>=1.2.0-b.c <1.2.0`.
pub fn pre_release_ranges(first: &VersionSet) -> Ending {
    match first.pre_release_ranges() {
        Ok(ranges) => Ending::full_if(has_bounds(&ranges, 2)),
        Err(_) => Ending::Refused,
    }
}

/// Calls for sets that make no request. They include the lowest version if there is none, a
/// combination without versions, a comparison of empty sets, and the ranges of these.
pub fn without_requests(first: &VersionSet, second: &VersionSet) -> Ending {
    let empty = VersionSet::empty(Digits::Kept);
    let is_told = empty.is_empty()
        && !first.is_empty()
        && first.is_subset(second) == Ok(false)
        && first.is_disjoint(second) == Ok(false)
        && first != second
        && begins_at(first, 1);
    let has_both = contains(first, "1.9.0") && contains(second, "1.9.0");
    let has_one = contains(first, "2.0.0") && !contains(second, "2.0.0");
    let is_lowest = matches!(empty.lowest(), Ok(None));
    let nothing = match first.combined(Combination::Difference, first) {
        Ok(nothing) => nothing == empty,
        Err(_) => false,
    };
    let is_compared = match empty.compare(&empty) {
        Ok(answer) => answer.shared.is_none(),
        Err(_) => false,
    };
    let is_shown = has_no_range(empty.release_ranges()) && has_no_range(empty.pre_release_ranges());
    Ending::full_if(
        is_told && has_both && has_one && is_lowest && nothing && is_compared && is_shown,
    )
}

/// Returns whether there is one range with this number of comparators.
fn has_bounds(ranges: &SetRanges, count: usize) -> bool {
    match ranges.range_set.ranges.as_slice() {
        [range] => range.comparator_set.len() == count,
        _ => false,
    }
}

/// Returns whether the call returned no range.
fn has_no_range(ranges: Result<SetRanges, AllocError>) -> bool {
    match ranges {
        Ok(ranges) => ranges.range_set.ranges.is_empty(),
        Err(_) => false,
    }
}

/// Returns whether a version without identifiers, which is read without a request, is in a set.
fn contains(set: &VersionSet, text: &str) -> bool {
    match version::read(text) {
        Ok(Some(version)) => set.contains(&version),
        _ => false,
    }
}

/// Returns whether a version, which is read without a request, is in a set.
fn has_stated(set: &VersionSet, text: &str) -> bool {
    version::read_ref(text).is_some_and(|borrowed| set.contains_ref(&borrowed))
}

/// Returns whether a set is a subset of another.
fn is_within(set: &VersionSet, other: &VersionSet) -> bool {
    set.is_subset(other) == Ok(true)
}

/// Returns whether the lowest release of a set has this major number.
fn begins_at(set: &VersionSet, major: u64) -> bool {
    set.lowest_release().is_some_and(|release| release.major == major)
}
