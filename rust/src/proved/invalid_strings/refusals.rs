// Made by tools/erase.py from crates/invalid_strings/src/refusals.rt; not edited by hand.
//! Where and why a string is an invalid version.

use crate::rattle_std::prelude::*;
use crate::proved::invalid_strings::buffers::join;
use crate::proved::invalid_strings::bytes::{Length, begins, is_version};
use crate::proved::invalid_strings::longest::{longest_prefix_in, text_prefix};
use crate::proved::invalid_strings::prefix_bytes::{byte_at, ends_in_zero, from_end, has_no_digit, is_separator};
use crate::proved::invalid_strings::reasons::Reason;
use crate::proved::invalid_strings::versions::Versions;
use crate::proved::semver_texts::bytes::is_part_byte;
use crate::proved::semver_texts::grammar::Grammar;
use crate::proved::semver_texts::npm_limits::MAX_LENGTH;
use crate::proved::semver_texts::white_space::is_ascii_white_space;
use crate::rattle_std::AllocError;

/// The error of an invalid version string: its offset and its reason.
#[derive(Clone, Copy)]
pub struct Refusal {
    /// The byte offset of the first character that isn't allowed there in a version, or the length
    /// of the string if something is missing at its end.
    pub offset: usize,
    /// The reason.
    pub reason: Reason,
}

/// Returns whether neither a number nor a `v` has begun.
fn is_blank(prefix: &[u8]) -> bool {
    prefix
        .iter()
        .all(|&byte| !(byte.is_ascii_digit() || byte == b'v'))
}

/// Returns why a prefix with fewer than three numbers doesn't continue as a version.
fn missing_after(prefix: &[u8]) -> Reason {
    if from_end(prefix, 0).is_ascii_digit() {
        Reason::NotThreeNumbers
    } else {
        Reason::NumberExpected
    }
}

/// Returns the reason for a byte that isn't allowed there: a `v` before the numbers, or another
/// one.
fn unexpected_in(grammar: Grammar, prefix: &[u8], byte: u8) -> Reason {
    let is_mark = byte == b'v' && is_blank(prefix);
    match grammar {
        Grammar::Cargo if is_mark => Reason::CargoV,
        Grammar::Crate if is_mark => Reason::CrateV,
        _ => Reason::UnexpectedCharacter,
    }
}

/// Returns the reason. `version` is whether the prefix is a version of any length, and `letter` and
/// `zero` are whether it is one with a letter or a zero appended. `too_long` is whether the prefix
/// with the next byte is too long.
fn reason_by(
    grammar: Grammar,
    version: bool,
    letter: bool,
    zero: bool,
    too_long: bool,
    prefix: &[u8],
    next: Option<u8>,
) -> Reason {
    let Some(byte) = next else {
        return if is_blank(prefix) {
            Reason::Empty
        } else if !letter {
            missing_after(prefix)
        } else if zero {
            Reason::EmptyIdentifier
        } else {
            Reason::LeadingZero
        };
    };
    let last = from_end(prefix, 0);
    if too_long {
        Reason::TooLong
    } else if byte.is_ascii_digit() && (last.is_ascii_digit() && !letter) {
        if ends_in_zero(prefix) {
            Reason::LeadingZero
        } else {
            Reason::too_large_in(grammar)
        }
    } else if version {
        if is_ascii_white_space(byte) || !is_part_byte(last) {
            Reason::TextAfter
        } else {
            Reason::UnexpectedCharacter
        }
    } else if !is_separator(byte) {
        unexpected_in(grammar, prefix, byte)
    } else if !letter {
        if has_no_digit(prefix) {
            Reason::UnexpectedCharacter
        } else {
            missing_after(prefix)
        }
    } else if zero {
        Reason::EmptyIdentifier
    } else {
        Reason::LeadingZero
    }
}

/// Returns whether the prefix with `part` appended is a version of any length.
fn takes(prefix: &str, part: &str, grammar: Grammar, buffer: &mut String) -> bool {
    join(buffer, prefix, part);
    is_version(buffer.as_bytes(), Length::Any, grammar)
}

/// Returns whether the dialect limits the length of a version.
fn has_limit(grammar: Grammar) -> bool {
    match grammar {
        Grammar::Crate => false,
        Grammar::Cargo => false,
        Grammar::Npm => true,
    }
}

/// Returns whether some version begins with the bytes, but every such version is longer than the
/// dialect allows. For a short string the result is known at once, for speed.
fn is_too_long(text: &[u8], grammar: Grammar) -> Result<bool, AllocError> {
    if !has_limit(grammar) {
        return Ok(false);
    }
    if text.len() + 8 <= MAX_LENGTH {
        return Ok(false);
    }
    let mut buffer = Vec::fallible_from_elem(0, text.len().saturating_add(8))?;
    Ok(is_too_long_in(text, grammar, buffer.as_mut_slice()))
}

/// Returns whether some version begins with the bytes, but every such version is longer than the
/// dialect allows. The buffer has to be at least 8 bytes longer than the string.
fn is_too_long_in(text: &[u8], grammar: Grammar, buffer: &mut [u8]) -> bool {
    begins(text, Length::Any, grammar, buffer) && !begins(text, Length::Allowed, grammar, buffer)
}

/// Returns the bytes up to an offset, and the byte at it, if there is one.
fn with_next(input: &[u8], offset: usize) -> &[u8] {
    if offset < input.len() {
        &input[..offset + 1]
    } else {
        input
    }
}

/// Returns the error of a version string, with its offset and reason, or `None` if the version is
/// valid.
///
/// ```text
/// explain(alloc, b"1.2.03", Grammar::Cargo)?    // at 5: LeadingZero
/// explain(alloc, b"1.2", Grammar::Npm)?         // at 3: NotThreeNumbers
/// explain(alloc, b"1.2.3 x", Grammar::Npm)?     // at 6: TextAfter
/// explain(alloc, b" v1.2.3", Grammar::Npm)?     // None
/// ```
///
/// # Errors
///
/// `AllocError` if an allocation fails. It allocates only if the version is invalid: one buffer of
/// about its length, or two if the dialect is npm's and the string is longer than 248 bytes.
pub fn explain(text: &[u8], grammar: Grammar) -> Result<Option<Refusal>, AllocError> {
    if is_version(text, Length::Allowed, grammar) {
        return Ok(None);
    }
    Ok(Some(refused(text, grammar)?))
}

/// Returns the error of an invalid version string.
fn refused(input: &[u8], grammar: Grammar) -> Result<Refusal, AllocError> {
    let text = text_prefix(input);
    let mut buffer = String::fallible_with_capacity(text.len().saturating_add(8))?;
    let offset = longest_prefix_in(&Versions { grammar }, text, &mut buffer);
    let too_long = is_too_long(with_next(input, offset), grammar)?;
    let next = byte_at(input, offset);
    let reason = reason_at(&text[..offset], next, too_long, grammar, &mut buffer);
    Ok(Refusal { offset, reason })
}

/// Returns the reason at the end of a prefix. `next` is the byte after it, and `too_long` is
/// whether the prefix with that byte is too long.
fn reason_at(
    prefix: &str,
    next: Option<u8>,
    too_long: bool,
    grammar: Grammar,
    buffer: &mut String,
) -> Reason {
    let bytes = prefix.as_bytes();
    let version = is_version(bytes, Length::Any, grammar);
    let letter = takes(prefix, "a", grammar, buffer);
    let zero = takes(prefix, "0", grammar, buffer);
    reason_by(grammar, version, letter, zero, too_long, bytes, next)
}
