//! Versions: reading one, why a string is invalid, and how two compare.

use crate::errors::{refused, show_with_carets, suggest};
use crate::shared::{explain_version, read_ref_in, Dialect, Expected, VersionRef};
use crate::{bytes, state, status};

/// Returns the borrowed version of a string in a dialect, or `None` if it is invalid, or if no
/// dialect has the number.
pub fn read_ref(string: &[u8], dialect: i32) -> Option<VersionRef<'_>> {
    read_ref_in(string, Dialect::from_number(dialect)?.grammar())
}

/// Reads a version. The output numbers are its three numbers, the offset and the length of the
/// pre-release in the string, and those of the build metadata.
///
/// # Safety
/// There are `len` bytes at the address.
#[no_mangle]
pub unsafe extern "C" fn version_read(at: *const u8, len: usize, dialect: i32) -> i32 {
    let Some(it) = read_ref(unsafe { bytes(at, len) }, dialect) else {
        return status::INVALID_VERSION;
    };
    let parts = [it.pre_offset(), it.pre().len(), it.build_offset(), it.build().len()];
    let [pre, pre_len, build, build_len] = parts.map(|it| it as u64);
    let numbers = [it.major(), it.minor(), it.patch(), pre, pre_len, build, build_len];
    state::with(|state| state.numbers = numbers);
    0
}

/// Compares two versions by precedence. Returns 0, 1 or 2 if the first is below, equal to or above
/// the second, and -1 if one of them is invalid.
///
/// # Safety
/// The addresses have as many bytes as their lengths say.
#[no_mangle]
pub unsafe extern "C" fn version_compare(
    at: *const u8,
    len: usize,
    other: *const u8,
    other_len: usize,
    dialect: i32,
) -> i32 {
    let version = read_ref(unsafe { bytes(at, len) }, dialect);
    let other = read_ref(unsafe { bytes(other, other_len) }, dialect);
    match (version, other) {
        (Some(version), Some(other)) => version.compare(&other) as i32 + 1,
        _ => status::INVALID_VERSION,
    }
}

/// Returns the number of the reason why a string is an invalid version, 0 if it is valid, or the
/// status for out of memory. The output numbers are the byte offset, and those at which the span
/// begins and ends.
///
/// # Safety
/// There are `len` bytes at the address.
#[no_mangle]
pub unsafe extern "C" fn version_refused(at: *const u8, len: usize, dialect: i32) -> i32 {
    let Some(dialect) = Dialect::from_number(dialect) else { return status::INVALID_VERSION };
    let version = unsafe { bytes(at, len) };
    match explain_version(version, dialect) {
        Ok(Some(refusal)) => refused(version, refusal.offset, refusal.reason),
        Ok(None) => 0,
        Err(_) => status::OUT_OF_MEMORY,
    }
}

/// Outputs what `{:#}` prints in Rust for the error of a version. Returns 0, or 1 if it is valid,
/// or the status for out of memory.
///
/// # Safety
/// There are `len` bytes at the address.
#[no_mangle]
pub unsafe extern "C" fn version_with_carets(at: *const u8, len: usize, dialect: i32) -> i32 {
    show_with_carets(Expected::Version, unsafe { bytes(at, len) }, dialect)
}

/// Outputs the valid version that may have been meant by a string. Returns 0, or 1 if none is
/// known, or the status for out of memory.
///
/// # Safety
/// There are `len` bytes at the address.
#[no_mangle]
pub unsafe extern "C" fn version_suggested(at: *const u8, len: usize, dialect: i32) -> i32 {
    suggest(Expected::Version, unsafe { bytes(at, len) }, dialect)
}
