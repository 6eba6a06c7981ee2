//! Functions that read and combine ranges.

use super::Ending;
use crate::proved::semver_parser::RangeError;
use crate::proved::semver_ranges::dialect::Dialect;
use crate::proved::tool_ranges::meaning::Rules;
use crate::proved::tool_ranges::version_range::VersionRange;
use crate::proved::version_sets::{Combination, OperationError, PreReleases};

/// Cargo's dialect, with each pre-release within the bounds.
const CARGO: Rules = Rules { dialect: Dialect::Cargo, pre_releases: PreReleases::Included };

/// Reads a range that contains 1.9.0-rc and not 2.0.0.
pub fn parse() -> Ending {
    match VersionRange::try_parse("^1.2", CARGO) {
        Ok(range) => Ending::full_if(
            range.try_contains_bytes(b"1.9.0-rc") == Ok(true)
                && range.try_contains_bytes(b"2.0.0") == Ok(false),
        ),
        Err(RangeError::OutOfMemory) => Ending::Refused,
        Err(_) => Ending::Wrong,
    }
}

/// Combines two ranges. Reading them is part of the call.
pub fn combined() -> Ending {
    let range = match VersionRange::try_parse("^1.2", CARGO) {
        Ok(range) => range,
        Err(RangeError::OutOfMemory) => return Ending::Refused,
        Err(_) => return Ending::Wrong,
    };
    let other = match VersionRange::try_parse(">=1.5, <3", CARGO) {
        Ok(other) => other,
        Err(RangeError::OutOfMemory) => return Ending::Refused,
        Err(_) => return Ending::Wrong,
    };
    let union = ends(range.combined(Combination::Union, &other), [true, true, true]);
    let intersection = ends(range.combined(Combination::Intersection, &other), [false, true, false]);
    let difference = ends(range.combined(Combination::Difference, &other), [true, false, false]);
    if [union, intersection, difference].contains(&Ending::Wrong) {
        return Ending::Wrong;
    }
    if [union, intersection, difference].contains(&Ending::Refused) {
        return Ending::Refused;
    }
    Ending::Full
}

/// Returns how a combination ends whose range has to contain, or not, 1.2.0, 1.5.0 and 2.0.0.
fn ends(combined: Result<VersionRange, OperationError>, wanted: [bool; 3]) -> Ending {
    let range = match combined {
        Ok(range) => range,
        Err(OperationError::OutOfMemory) => return Ending::Refused,
        Err(_) => return Ending::Wrong,
    };
    let texts: [&[u8]; 3] = [b"1.2.0", b"1.5.0", b"2.0.0"];
    let mut is_right = true;
    for (text, is_in) in texts.iter().zip(wanted.iter()) {
        is_right &= range.try_contains_bytes(text) == Ok(*is_in);
    }
    Ending::full_if(is_right)
}
