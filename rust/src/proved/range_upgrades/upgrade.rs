// Made by tools/erase.py from crates/range_upgrades/src/upgrade.rt; not edited by hand.
//! Raises a requirement, so that it contains a newer version.

use crate::rattle_std::prelude::*;
use crate::proved::range_upgrades::alternatives::{has_bars, last_alternative};
use crate::proved::range_upgrades::raised_ranges::{raised_as_one_more, raised_in_place};
use crate::proved::range_upgrades::raised_versions::Form;
use crate::proved::semver_ranges::RangeError;
use crate::proved::semver_versions::version::{VersionRef, read_ref_in};
use crate::rattle_std::AllocError;
use crate::proved::tool_ranges::at_or_above::has_at_or_above;
use crate::proved::tool_ranges::meaning::{Rules, satisfies};
use crate::proved::tool_ranges::widening::is_widened;

/// Why a requirement can't be raised.
#[derive(Clone, Copy, PartialEq, Eq, Debug)]
pub enum UpgradeError {
    /// The version is invalid in the dialect.
    InvalidVersion,
    /// The string is not a range in the dialect, or one of its numbers is too large.
    InvalidRange(RangeError),
    /// The raised requirement wouldn't contain the version.
    CannotUpgrade,
    /// An allocation failed.
    OutOfMemory,
}

impl crate::rattle_std::fmt::Display for UpgradeError {
    fn fmt(&self, f: &mut crate::rattle_std::fmt::Formatter<'_>) -> crate::rattle_std::fmt::Result {
        match self {
            UpgradeError::InvalidVersion => write!(f, "invalid version"),
            UpgradeError::InvalidRange(_0) => write!(f, "invalid range: {_0}"),
            UpgradeError::CannotUpgrade => write!(f, "the requirement can't be raised to this version"),
            UpgradeError::OutOfMemory => write!(f, "out of memory"),
        }
    }
}

#[cfg(feature = "std")]
impl crate::rattle_std::Error for UpgradeError {}

impl From<AllocError> for UpgradeError {
    fn from(_error: AllocError) -> UpgradeError {
        UpgradeError::OutOfMemory
    }
}

/// Raises a requirement, so that it contains a newer version, and keeps how it is written. Returns
/// `None` if some version at or above the newer one is already in the range, so nothing is ever
/// lowered.
///
/// ```text
/// dialect  range               version     result
/// Cargo    ^1.2                2.3.4       ^2.3
/// Cargo    >= 1.2 , < 2.0.0    2.3.0       >= 1.2 , < 3.0.0
/// Cargo    ^3                  2.0.0       None
/// npm      v1.x                2.3.4       v2.x
/// npm      1.2 - 1.9           2.3.4       1.2 - 2.3
/// npm      ~1.2 || ^2.0.0      3.1.0       ~1.2 || ^2.0.0 || ^3.1.0
/// npm      ^0.5 || >=1.2 <2    2.3.4       ^0.5 || >=1.2 <3
/// npm      ^1.2                2.0.0-rc.1  ^2.0.0-rc.1
/// ```
///
/// The terms after the last `||` are raised, if their bounds allow no version at or above the newer
/// one:
///
/// - The version of a term without an operator or with `=`, `~`, `^` or `<=`, and the right version
///   of a hyphen range, becomes the newer one, with as many components, with its wildcards and its
///   `v`. The pre-release is written after three numbers, and build metadata is left out.
/// - If the result wouldn't contain the newer version then, and that is a pre-release, three
///   numbers are written where they mean the same: after `^`, after `~` instead of two, and in
///   Cargo's dialect without an operator.
/// - The version of `<` becomes the next one above the newer version. Its last number that isn't 0
///   says which number is raised by one, and what follows that is 0. A pre-release `0` is kept.
/// - `>=` and `>` are kept.
///
/// If the range has `||`, the raised terms are added as one more alternative instead, so that no
/// version is lost. They are raised in place only if all versions that change are upper bounds:
/// those of `<` and `<=`, and right versions of hyphen ranges. An upper bound with a pre-release
/// isn't raised in place either, except for `<` with the pre-release `0`. Everything else stays as
/// it is.
///
/// It takes linear time. It allocates only the raised range, and before that at most three strings
/// that it doesn't return: the range with its last alternative raised in place, if it has `||`, and
/// both forms again, if the version is a pre-release and needs three numbers.
///
/// # Errors
///
/// - `InvalidVersion` if the version is invalid in the dialect.
/// - Otherwise `InvalidRange` if the string is not a range in the dialect, or if one of its numbers
///   is too large.
/// - `CannotUpgrade` if the raised range wouldn't contain the version, such as `1.x` for
///   2.0.0-rc.1 in npm's dialect.
/// - `OutOfMemory` if an allocation failed.
pub fn upgrade(
    range: &str,
    version: &[u8],
    meaning: Rules,
) -> Result<Option<String>, UpgradeError> {
    let Some(version) = read_ref_in(version, meaning.dialect.grammar()) else {
        return Err(UpgradeError::InvalidVersion);
    };
    let has = match has_at_or_above(&version, range, meaning) {
        Ok(has) => has,
        Err(error) => return Err(UpgradeError::InvalidRange(error)),
    };
    if has {
        return Ok(None);
    }
    let new = raised_in_some_form(range, &version, meaning)?;
    let Some(new) = new else {
        return Err(UpgradeError::CannotUpgrade);
    };
    Ok(Some(new))
}

/// Returns the range with its last alternative raised to a version. The raised versions have as
/// many components as before, or three if the result would otherwise not contain the version. It is
/// `None` if the result wouldn't contain it then, either. `Err` means out of memory.
fn raised_in_some_form(
    range: &str,
    version: &VersionRef<'_>,
    meaning: Rules,
) -> Result<Option<String>, AllocError> {
    let as_written = raised_range(range, version, meaning, Form::AsWritten)?;
    if as_written.is_some() {
        return Ok(as_written);
    }
    if !version.is_pre_release() {
        return Ok(None);
    }
    raised_range(range, version, meaning, Form::InFull)
}

/// Returns the range with its last alternative raised to a version: in place, or, if the range has
/// `||` and isn't widened then, as one more alternative. It is `None` if the result wouldn't
/// contain the version. `Err` means out of memory.
fn raised_range(
    range: &str,
    version: &VersionRef<'_>,
    meaning: Rules,
    form: Form,
) -> Result<Option<String>, AllocError> {
    let Some(last) = last_alternative(range, meaning.dialect) else {
        return Ok(None);
    };
    let in_place = raised_in_place(range, &last, version, meaning.dialect, form)?;
    let Some(in_place) = in_place else {
        return Ok(None);
    };
    if !is_satisfied(in_place.as_str(), version, meaning) {
        return Ok(None);
    }
    if !has_bars(range.as_bytes()) {
        return Ok(Some(in_place));
    }
    if is_widened(range, in_place.as_str(), meaning.dialect) {
        return Ok(Some(in_place));
    }
    let longer = raised_as_one_more(range, &last, version, meaning.dialect, form)?;
    let Some(longer) = longer else {
        return Ok(None);
    };
    if !is_satisfied(longer.as_str(), version, meaning) {
        return Ok(None);
    }
    if is_widened(range, longer.as_str(), meaning.dialect) {
        return Ok(Some(longer));
    }
    Ok(None)
}

/// Returns whether a string is a range that contains a version.
fn is_satisfied(range: &str, version: &VersionRef<'_>, meaning: Rules) -> bool {
    match satisfies(version, range, meaning) {
        Ok(met) => met,
        Err(_) => false,
    }
}
