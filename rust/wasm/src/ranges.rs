//! Ranges: reading them, checking versions against them, and comparing and subtracting them.

use crate::proved::tool_ranges::npm::rewrite_included;
use crate::shared::{self, rewrite, Combination, Dialect, Extreme, PreReleases, RangeError, Reason};
use crate::errors::{refused, show_if_any, show_with_carets, suggest};
use crate::shared::{cannot_upgrade, upgraded, UpgradeError};
use crate::shared::{requirement, Expected, Rules, SatisfiesError, VersionRange as Range};
use crate::{bytes, state, status};
use alloc::alloc::{alloc, Layout};
use alloc::boxed::Box;
use alloc::string::String;
use alloc::vec::Vec;
use core::fmt::{self, Write};
use core::ptr::null_mut;

fn rules(dialect: i32, rule: i32) -> Option<Rules> {
    let (dialect, pre_releases) = (Dialect::from_number(dialect)?, PreReleases::from_number(rule)?);
    Some(Rules { dialect, pre_releases })
}

/// Returns the string at an address, if it is UTF-8.
///
/// # Safety
/// There are `len` bytes at the address, and nothing writes to them meanwhile.
unsafe fn string<'a>(at: *const u8, len: usize) -> Option<&'a str> {
    core::str::from_utf8(unsafe { bytes(at, len) }).ok()
}

/// Returns 1 if a version satisfies a range, 0 if it doesn't, and a status if one of them is
/// invalid.
///
/// # Safety
/// The addresses have as many bytes as their lengths say.
#[no_mangle]
pub unsafe extern "C" fn range_satisfied(
    range: *const u8,
    range_len: usize,
    at: *const u8,
    len: usize,
    dialect: i32,
    rule: i32,
) -> i32 {
    let (Some(rules), Some(range)) = (rules(dialect, rule), unsafe { string(range, range_len) })
    else {
        return status::INVALID_RANGE;
    };
    match shared::satisfies(unsafe { bytes(at, len) }, range, rules) {
        Ok(answer) => answer.into(),
        Err(SatisfiesError::InvalidVersion) => status::INVALID_VERSION,
        Err(SatisfiesError::InvalidRange(_)) => status::INVALID_RANGE,
    }
}

/// Outputs a requirement that is raised, so that it contains a newer version. Returns 0, or 1 if it
/// has a version at or above that, or a status. With the status `CANNOT_UPGRADE` the output is the
/// message of the error.
///
/// # Safety
/// The addresses have as many bytes as their lengths say.
#[no_mangle]
pub unsafe extern "C" fn range_upgraded(
    range: *const u8,
    range_len: usize,
    at: *const u8,
    len: usize,
    dialect: i32,
    rule: i32,
) -> i32 {
    let (Some(rules), Some(range)) = (rules(dialect, rule), unsafe { string(range, range_len) })
    else {
        return status::INVALID_RANGE;
    };
    match upgraded(range, unsafe { bytes(at, len) }, rules) {
        Ok(string) => show_if_any(string),
        Err(UpgradeError::InvalidVersion) => status::INVALID_VERSION,
        Err(UpgradeError::InvalidRange(_)) => status::INVALID_RANGE,
        Err(UpgradeError::CannotUpgrade) => match cannot_upgrade(range).map(show) {
            Ok(0) => status::CANNOT_UPGRADE,
            _ => status::OUT_OF_MEMORY,
        },
        Err(UpgradeError::OutOfMemory) => status::OUT_OF_MEMORY,
    }
}

/// Returns the number of the reason why a string isn't a range, 0 if it is one, or the status for
/// out of memory. The output numbers are the byte offset, and those at which the span begins and
/// ends.
///
/// # Safety
/// There are `len` bytes at the address.
#[no_mangle]
pub unsafe extern "C" fn range_refused(at: *const u8, len: usize, dialect: i32) -> i32 {
    let (Some(dialect), Some(range)) = (Dialect::from_number(dialect), unsafe { string(at, len) })
    else {
        return Reason::NotUtf8.number();
    };
    match shared::explain_range(dialect, range) {
        Ok(Some(refusal)) => refused(range.as_bytes(), refusal.offset, refusal.reason),
        Ok(None) => 0,
        Err(_) => status::OUT_OF_MEMORY,
    }
}

/// Outputs what `{:#}` prints in Rust for the error of a range. Returns 0, or 1 if it is valid, or
/// the status for out of memory.
///
/// # Safety
/// There are `len` bytes at the address.
#[no_mangle]
pub unsafe extern "C" fn range_with_carets(at: *const u8, len: usize, dialect: i32) -> i32 {
    show_with_carets(Expected::Range, unsafe { bytes(at, len) }, dialect)
}

/// Outputs the valid range that may have been meant by a string. Returns 0, or 1 if none is known,
/// or the status for out of memory.
///
/// # Safety
/// There are `len` bytes at the address.
#[no_mangle]
pub unsafe extern "C" fn range_suggested(at: *const u8, len: usize, dialect: i32) -> i32 {
    suggest(Expected::Range, unsafe { bytes(at, len) }, dialect)
}

/// A string that grows as it is written to, or returns an error if out of memory.
struct Growing<'a>(&'a mut String);

impl Write for Growing<'_> {
    fn write_str(&mut self, part: &str) -> fmt::Result {
        self.0.try_reserve(part.len()).map_err(|_| fmt::Error)?;
        self.0.push_str(part);
        Ok(())
    }
}

/// Outputs a value as a string. Returns 0, or the status for out of memory.
pub fn show(shown: impl fmt::Display) -> i32 {
    state::with(|state| {
        state.text.clear();
        if write!(Growing(&mut state.text), "{shown}").is_err() {
            return status::OUT_OF_MEMORY;
        }
        state.numbers[0] = state.text.as_ptr() as u64;
        state.numbers[1] = state.text.len() as u64;
        0
    })
}

/// Outputs the comparators of a range as a string. Returns 0, or a status if it isn't a range. In
/// npm's dialect with `PreReleases::Included` they say which pre-releases satisfy the range, too:
/// their lower bounds are as node-semver writes them with `includePrerelease`.
///
/// # Safety
/// There are `len` bytes at the address.
#[no_mangle]
pub unsafe extern "C" fn range_comparators(
    at: *const u8,
    len: usize,
    dialect: i32,
    rule: i32,
) -> i32 {
    let (Some(rules), Some(range)) = (rules(dialect, rule), unsafe { string(at, len) }) else {
        return status::INVALID_RANGE;
    };
    let comparators = match (rules.dialect, rules.pre_releases) {
        (Dialect::Npm, PreReleases::Included) => rewrite_included(range),
        (dialect, _) => rewrite(dialect, range),
    };
    match comparators {
        Ok(set) => show(set),
        Err(RangeError::OutOfMemory) => status::OUT_OF_MEMORY,
        Err(_) => status::INVALID_RANGE,
    }
}

/// Moves a range to the heap. Returns null if out of memory.
fn kept(range: Range) -> *mut Range {
    // SAFETY: the block has the layout that `Box` gives back.
    let place = unsafe { alloc(Layout::new::<Range>()) }.cast::<Range>();
    if !place.is_null() {
        unsafe { place.write(range) };
    }
    place
}

/// Reads a range. Returns null if it isn't one, or if out of memory.
///
/// # Safety
/// There are `len` bytes at the address.
#[no_mangle]
pub unsafe extern "C" fn range_read(
    at: *const u8,
    len: usize,
    dialect: i32,
    rule: i32,
) -> *mut Range {
    let (Some(rules), Some(range)) = (rules(dialect, rule), unsafe { string(at, len) }) else {
        return null_mut();
    };
    Range::try_parse(range, rules).map_or(null_mut(), kept)
}

/// Frees a range.
///
/// # Safety
/// It was returned by `range_read` or `range_difference`, and hasn't been freed yet.
#[no_mangle]
pub unsafe extern "C" fn range_free(range: *mut Range) {
    drop(unsafe { Box::from_raw(range) });
}

/// Returns 1 if a version is in a range, 0 if it isn't, and a status if it is invalid.
///
/// # Safety
/// There are `len` bytes at the address.
#[no_mangle]
pub unsafe extern "C" fn range_has(range: &Range, at: *const u8, len: usize) -> i32 {
    range.try_contains_bytes(unsafe { bytes(at, len) }).map_or(status::INVALID_VERSION, i32::from)
}

/// Returns the index of the highest, or the lowest, of the given versions that are in a range. Of
/// equal versions it is the first. Returns `count` if none is in the range, and `usize::MAX` if out
/// of memory. Invalid versions are skipped.
///
/// # Safety
/// The addresses have `count` lengths, and the bytes of all versions, one after the other.
#[no_mangle]
pub unsafe extern "C" fn range_best(
    range: &Range,
    lengths: *const u32,
    count: usize,
    at: *const u8,
    lowest: i32,
) -> usize {
    let lengths = unsafe { core::slice::from_raw_parts(lengths, count) };
    let mut versions = Vec::new();
    if versions.try_reserve_exact(count).is_err() {
        return usize::MAX;
    }
    let mut at = at;
    for len in lengths {
        versions.push(unsafe { bytes(at, *len as usize) });
        at = at.wrapping_add(*len as usize);
    }
    let which = if lowest != 0 { Extreme::Lowest } else { Extreme::Highest };
    range.extreme_index(which, &versions).unwrap_or(count)
}

/// Returns 1 if no version is in a range, otherwise 0.
#[no_mangle]
pub extern "C" fn range_is_empty(range: &Range) -> i32 {
    range.is_empty().into()
}

/// Returns 1 if every version in a range is in the other, 0 if not, and a status if their dialects
/// can't be compared.
#[no_mangle]
pub extern "C" fn range_is_within(range: &Range, other: &Range) -> i32 {
    range.is_subset_of(other).map_or(status::INVALID_RANGE, i32::from)
}

/// Returns 1 if no version is in both ranges, 0 if one is, and a status if their dialects can't be
/// compared.
#[no_mangle]
pub extern "C" fn range_is_apart(range: &Range, other: &Range) -> i32 {
    range.is_disjoint_from(other).map_or(status::INVALID_RANGE, i32::from)
}

/// Returns the versions that are in a range and not in the other, as a range with the meaning of
/// the first. Returns null if out of memory, or if their dialects can't be compared. The other
/// range may have another rule for pre-releases, since in JavaScript each range has its own.
#[no_mangle]
pub extern "C" fn range_difference(range: &Range, other: &Range) -> *mut Range {
    let Ok(versions) = range.versions().combined(Combination::Difference, other.versions()) else {
        return null_mut();
    };
    Range::from_versions(versions, range.rules()).map_or(null_mut(), kept)
}

/// Outputs the lowest version in a range as a string, which is empty if there is none. Returns 0,
/// or the status for out of memory.
#[no_mangle]
pub extern "C" fn range_lowest(range: &Range) -> i32 {
    match range.try_lowest_version() {
        Ok(Some(version)) => show(version),
        Ok(None) => show(""),
        Err(_) => status::OUT_OF_MEMORY,
    }
}

/// Outputs a string that reads back as a range of the same versions, in the syntax of its dialect.
/// Returns 0, or 1 if none was found, or the status for out of memory.
#[no_mangle]
pub extern "C" fn range_requirement(range: &Range) -> i32 {
    requirement(range).map_or(status::OUT_OF_MEMORY, show_if_any)
}

/// Outputs the releases of a range as comparators. Returns 0, or the status for out of memory.
#[no_mangle]
pub extern "C" fn range_releases(range: &Range) -> i32 {
    range.versions().release_ranges().map_or(status::OUT_OF_MEMORY, show)
}

/// Outputs the pre-releases of a range as comparators. Returns 0, or the status for out of memory.
#[no_mangle]
pub extern "C" fn range_pre_releases(range: &Range) -> i32 {
    range.versions().pre_release_ranges().map_or(status::OUT_OF_MEMORY, show)
}
