//! The terms of a range, as they are written.

use crate::shared::{version_at, Component, Dialect, PartialVersion, Term, Terms};
use crate::versions::read_ref;
use crate::{bytes, ranges, state, status};
use core::str::from_utf8;

/// The number of numbers of a term.
const NUMBERS: usize = 32;

/// Reads the terms of a range. Returns how many there are, or a status. The first output number is
/// the address of their numbers, 32 for each term:
///
/// - the index of its range
/// - the address of its operator, and the length of that
/// - its span
/// - whether it has a second version
/// - 13 numbers of each version: its span, whether it begins with `v`, the kind and the number of
///   each component, the offset and the length of the pre-release, and those of the build metadata
///
/// # Safety
/// There are `len` bytes at the address.
#[no_mangle]
pub unsafe extern "C" fn range_terms(at: *const u8, len: usize, dialect: i32) -> i32 {
    let (Some(dialect), Ok(range)) =
        (Dialect::from_number(dialect), from_utf8(unsafe { bytes(at, len) }))
    else {
        return status::INVALID_RANGE;
    };
    let Ok(terms) = Terms::try_parse(range, dialect) else { return status::INVALID_RANGE };
    state::with(|state| {
        state.terms.clear();
        if state.terms.try_reserve(NUMBERS * terms.clone().count()).is_err() {
            return status::OUT_OF_MEMORY;
        }
        let mut count = 0;
        for term in terms {
            state.terms.extend(numbers_of(&term, at as usize));
            count += 1;
        }
        state.numbers[0] = state.terms.as_ptr() as u64;
        count
    })
}

/// Returns the numbers of a term, in a string at an address.
fn numbers_of(term: &Term<'_>, begin: usize) -> impl Iterator<Item = u64> {
    let Term { range, operator, span, version, upper, .. } = *term;
    let head = [
        range as u64,
        operator.sign().as_ptr() as u64,
        operator.sign().len() as u64,
        span.start as u64,
        span.end as u64,
        upper.is_some().into(),
    ];
    head.into_iter()
        .chain(numbers_of_version(&version, begin))
        .chain(numbers_of_version(&upper.unwrap_or(version), begin))
}

/// Returns the numbers of a version, in a string at an address.
fn numbers_of_version(version: &PartialVersion<'_>, begin: usize) -> [u64; 13] {
    let [major, minor, patch] =
        [Some(version.major), version.minor, version.patch].map(numbers_of_component);
    let [pre, build] = [version.pre, version.build]
        .map(|part| [(part.as_ptr() as usize).wrapping_sub(begin), part.len()].map(|it| it as u64));
    [
        version.span.start as u64,
        version.span.end as u64,
        version.has_v.into(),
        major[0],
        major[1],
        minor[0],
        minor[1],
        patch[0],
        patch[1],
        pre[0],
        pre[1],
        build[0],
        build[1],
    ]
}

/// Returns the kind of a component and its number. The kind is 0 if it isn't written, 1 for a
/// number, and 2 for a wildcard, whose number is that of its character.
fn numbers_of_component(component: Option<Component>) -> [u64; 2] {
    match component {
        None => [0, 0],
        Some(Component::Number(number)) => [1, number],
        Some(Component::Wildcard(it)) => [2, it.into()],
    }
}

/// Outputs a range in which the version of a term that begins at an offset has the numbers of
/// another version. Returns 0, or 1 if no version of a term begins there, or a status.
///
/// # Safety
/// The addresses have as many bytes as their lengths say.
#[no_mangle]
pub unsafe extern "C" fn range_replaced(
    range: *const u8,
    range_len: usize,
    start: usize,
    at: *const u8,
    len: usize,
    dialect: i32,
) -> i32 {
    let (Some(known), Ok(range)) =
        (Dialect::from_number(dialect), from_utf8(unsafe { bytes(range, range_len) }))
    else {
        return status::INVALID_RANGE;
    };
    let (before, written, after) = match version_at(range, start, known) {
        Ok(Some(found)) => found,
        Ok(None) => return 1,
        Err(_) => return status::INVALID_RANGE,
    };
    let Some(version) = read_ref(unsafe { bytes(at, len) }, dialect) else {
        return status::INVALID_VERSION;
    };
    let version = written.with_version(&version);
    ranges::show(format_args!("{before}{version}{after}"))
}
