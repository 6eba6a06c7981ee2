// Made by tools/erase.py from crates/semver_versions/src/version.rt; not edited by hand.
//! Reads version strings directly from their bytes: as a `Version`, or as a borrowed version that
//! allocates nothing.
//!
//! In the crate's grammar, a version is three numbers separated by dots, such as
//! `1.2.3-rc.1+5aedf`. They are followed optionally by `-` and the identifiers of a pre-release,
//! and then optionally by `+` and the identifiers of the build metadata, both separated by dots.
//! Spaces, tabs, line feeds and carriage returns are allowed before and after it. A number is `0`,
//! or digits that don't begin with `0`, up to 2^64 - 1. An identifier is one or more sequences of
//! ASCII letters and digits, joined by single hyphens. The number of these sequences, the number of
//! identifiers and the length of a string aren't limited.

use crate::rattle_std::prelude::*;
use crate::proved::semver_versions::reader;
pub use crate::proved::semver_versions::version_order::compare_by;
pub use crate::proved::semver_versions::version_ref::VersionRef;
pub use crate::proved::semver_texts::grammar::{Digits, Grammar};
pub use crate::proved::semver_texts::precedence::cmp_precedence;
pub use crate::proved::semver_texts::version::{Identifier, Version};
use crate::rattle_std::AllocError;

/// Returns the version that the string spells, or `None` if it spells none. To find out what is
/// wrong with an invalid version, call `semver_parser::version::parse`.
///
/// `Err` means out of memory, which is possible only if the string spells a version with a
/// pre-release or build metadata. Nothing is allocated before the whole string is known to spell a
/// version. Then the lists of identifiers are allocated, and each identifier that isn't a number.
/// For an invalid version nothing is allocated, however long the string is.
#[inline(always)]
pub fn read(input: &str) -> Result<Option<Version>, AllocError> {
    let Some(borrowed) = read_ref(input) else {
        return Ok(None);
    };
    Ok(Some(borrowed.version_in(input)?))
}

/// Reads a version like [`read`], from bytes that needn't be UTF-8. Bytes that aren't UTF-8 give
/// `None`.
///
/// The bytes aren't checked for UTF-8, since each byte of a version is ASCII. So for lines of a
/// file this is faster than such a check followed by [`read`].
#[inline(always)]
pub fn read_bytes(input: &[u8]) -> Result<Option<Version>, AllocError> {
    let Some(borrowed) = read_ref_bytes(input) else {
        return Ok(None);
    };
    Ok(Some(borrowed.version()?))
}

/// Returns the version that the string spells as a borrowed version, or `None` if it spells none.
///
/// It does not allocate: its parts are slices of the input.
#[must_use]
#[inline(always)]
pub fn read_ref(input: &str) -> Option<VersionRef<'_>> {
    read_ref_bytes(input.as_bytes())
}

/// Returns the result of [`read_ref`] for bytes that needn't be UTF-8. Bytes that aren't UTF-8 give
/// `None`, without a separate check. It does not allocate.
#[must_use]
#[inline(always)]
pub fn read_ref_bytes(input: &[u8]) -> Option<VersionRef<'_>> {
    read_ref_in(input, Grammar::Crate)
}

/// Returns the result of [`read_ref_bytes`] in a dialect.
///
/// The bytes needn't be UTF-8, and it does not allocate. The pages `docs::grammar` and
/// `docs::original_crate` have the grammars.
#[must_use]
#[inline(always)]
pub fn read_ref_in(input: &[u8], grammar: Grammar) -> Option<VersionRef<'_>> {
    reader::read_ref(input, grammar)
}

/// Returns whether the bytes spell a version in a dialect, whatever their length, which only npm
/// limits. For `1.2.3` after a thousand spaces this is true in npm's dialect, although
/// [`read_ref_in`] returns `None`.
///
/// The bytes needn't be UTF-8, and it does not allocate.
#[must_use]
pub fn is_version_at_any_length(input: &[u8], grammar: Grammar) -> bool {
    reader::read_ref_at_any_length(input, grammar).is_some()
}
