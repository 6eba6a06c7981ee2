// Made by tools/erase.py from crates/semver_versions/src/reader.rt; not edited by hand.
//! Reads a version string from its bytes as a borrowed version, in a dialect: three numbers, and
//! the pre-release and the build metadata as slices. Each byte that is read as a part of a version
//! is ASCII, so the bytes need no check for UTF-8.
//!
//! The dialects differ in what is allowed before and after the version, in the hyphens and zeros of
//! identifiers, and in npm's limits. A version of only three numbers is the same in each dialect,
//! so it is read without looking at the dialect, for speed. Functions that depend on the dialect
//! are called, not inlined.

use crate::rattle_std::prelude::*;
use crate::proved::semver_versions::version_ref::{VersionRef, with_parts};
use crate::proved::semver_texts::decimals::{begins_with_digit, numbers_at_digit};
use crate::proved::semver_texts::dotted::{Hyphens, have_no_leading_zeros, marked_part, strip_mark};
use crate::proved::semver_texts::grammar::Grammar;
use crate::proved::semver_texts::npm_limits::{MAX_LENGTH, MAX_SAFE_INTEGER};
use crate::proved::semver_texts::white_space::white_space_len;

/// Returns the length in bytes of the first character, if it is allowed around a version, otherwise
/// 0. npm allows what JavaScript calls white space.
#[inline(always)]
fn around_len(bytes: &[u8], grammar: Grammar) -> usize {
    match grammar {
        Grammar::Crate => match bytes {
            [b' ' | b'\t' | b'\n' | b'\r', ..] => 1,
            _ => 0,
        },
        Grammar::Cargo => 0,
        Grammar::Npm => white_space_len(bytes),
    }
}

/// Returns what follows the characters at the beginning that are allowed around a version.
#[inline(never)]
fn after_around(bytes: &[u8], grammar: Grammar) -> &[u8] {
    let mut rest = bytes;
    loop {
        let len = around_len(rest, grammar);
        if len == 0 {
            return rest;
        }
        rest = &rest[len..];
    }
}

/// Returns what follows everything that is allowed before the numbers, which in npm's dialect
/// includes one `v`.
#[inline(never)]
fn after_front(bytes: &[u8], grammar: Grammar) -> &[u8] {
    let rest = after_around(bytes, grammar);
    match grammar {
        Grammar::Crate | Grammar::Cargo => rest,
        Grammar::Npm => match strip_mark(rest, b'v') {
            Some(after) => after,
            None => rest,
        },
    }
}

/// Returns what follows everything that is allowed before the numbers, if it begins with a digit. A
/// digit at the very beginning is recognized first, for speed: nothing is before it.
#[inline(always)]
fn at_digit(bytes: &[u8], grammar: Grammar) -> Option<&[u8]> {
    if begins_with_digit(bytes) {
        return Some(bytes);
    }
    let rest = after_front(bytes, grammar);
    if begins_with_digit(rest) {
        Some(rest)
    } else {
        None
    }
}

/// Returns whether the bytes are allowed after a version.
#[inline(always)]
fn may_end(bytes: &[u8], grammar: Grammar) -> bool {
    bytes.is_empty() || after_around(bytes, grammar).is_empty()
}

/// Returns whether the numbers of a version are within npm's limit.
#[inline(always)]
fn are_small(major: u64, minor: u64, patch: u64) -> bool {
    major | minor | patch <= MAX_SAFE_INTEGER
}

/// Returns whether the numbers of a version are within the limit, which only npm has. Small numbers
/// are recognized first, for speed.
#[inline(always)]
fn fit(major: u64, minor: u64, patch: u64, grammar: Grammar) -> bool {
    if are_small(major, minor, patch) {
        return true;
    }
    match grammar {
        Grammar::Crate | Grammar::Cargo => true,
        Grammar::Npm => false,
    }
}

/// Returns whether a number of characters plus those of the bytes is within the limit, which only
/// npm has.
#[inline(always)]
fn is_short(before: usize, bytes: &[u8], grammar: Grammar) -> bool {
    if before + bytes.len() <= MAX_LENGTH {
        return true;
    }
    match grammar {
        Grammar::Crate | Grammar::Cargo => true,
        Grammar::Npm => before + count_characters(bytes) <= MAX_LENGTH,
    }
}

/// Returns the number of characters of the bytes in UTF-8.
#[inline(never)]
fn count_characters(bytes: &[u8]) -> usize {
    let mut count = 0;
    for at in 0..bytes.len() {
        if !matches!(bytes[at], 0x80..=0xBF) {
            count += 1;
        }
    }
    count
}

/// Returns whether the dialect allows the leading zeros in the identifiers of a pre-release.
#[inline(always)]
fn zeros_fit(pre: &[u8], grammar: Grammar) -> bool {
    match grammar {
        Grammar::Crate => true,
        Grammar::Cargo | Grammar::Npm => have_no_leading_zeros(pre),
    }
}

/// Returns the identifiers of the pre-release and of the build metadata, if the bytes are these,
/// each after its mark, and what is allowed after a version. Either is empty if it is missing. It
/// is compiled separately for each kind of hyphens, for speed.
#[inline(never)]
fn parts(bytes: &[u8], grammar: Grammar) -> Option<(&[u8], &[u8])> {
    match grammar {
        Grammar::Crate => parts_with(bytes, Hyphens::BetweenRuns, grammar),
        Grammar::Cargo | Grammar::Npm => parts_with(bytes, Hyphens::Any, grammar),
    }
}

/// Returns the result of `parts`, for identifiers with the given kind of hyphens.
#[inline(always)]
fn parts_with(bytes: &[u8], hyphens: Hyphens, grammar: Grammar) -> Option<(&[u8], &[u8])> {
    let (pre, rest) = marked_part(bytes, b'-', hyphens)?;
    let (build, rest) = marked_part(rest, b'+', hyphens)?;
    if may_end(rest, grammar) && zeros_fit(pre, grammar) {
        Some((pre, build))
    } else {
        None
    }
}

/// Returns the borrowed version of a string, if it spells a version. Its numbers were read and are
/// within the limit: they end at the offset `numbers_end`, and `rest` follows them.
#[inline(always)]
fn with_rest(
    major: u64,
    minor: u64,
    patch: u64,
    numbers_end: usize,
    rest: &[u8],
    grammar: Grammar,
) -> Option<VersionRef<'_>> {
    let (pre, build) = parts(rest, grammar)?;
    Some(with_parts(
        major,
        minor,
        patch,
        numbers_end,
        pre,
        build,
        grammar.digits(),
    ))
}

/// Returns the borrowed version of a string, if it spells a version. Its numbers were read: they
/// end at the offset `numbers_end`, and `rest` follows them. A version of only numbers is
/// recognized first, for speed, and a separate function reads what follows them, so nothing is
/// prepared for it here.
#[inline(always)]
fn after_numbers(
    major: u64,
    minor: u64,
    patch: u64,
    numbers_end: usize,
    rest: &[u8],
    grammar: Grammar,
) -> Option<VersionRef<'_>> {
    if !fit(major, minor, patch, grammar) {
        return None;
    }
    if rest.is_empty() {
        return Some(with_parts(major, minor, patch, numbers_end, &[], &[], grammar.digits()));
    }
    with_rest(major, minor, patch, numbers_end, rest, grammar)
}

/// Returns the borrowed version that the bytes spell, if they spell one.
#[inline(always)]
pub(crate) fn read_ref(input: &[u8], grammar: Grammar) -> Option<VersionRef<'_>> {
    if !is_short(0, input, grammar) {
        return None;
    }
    read_ref_at_any_length(input, grammar)
}

/// Returns the borrowed version that the bytes spell, if they spell one, whatever their length.
#[inline(always)]
pub(crate) fn read_ref_at_any_length(input: &[u8], grammar: Grammar) -> Option<VersionRef<'_>> {
    let at = at_digit(input, grammar)?;
    let (major, minor, patch, rest) = numbers_at_digit(at)?;
    after_numbers(major, minor, patch, input.len() - rest.len(), rest, grammar)
}
