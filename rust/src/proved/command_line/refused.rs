// Made by tools/erase.py from crates/command_line/src/refused.rt; not edited by hand.
//! The message for the error of a range: the offset of the first byte that isn't allowed there,
//! with a caret below it, and the reason.

use crate::rattle_std::prelude::*;
use crate::proved::command_line::excerpt::Excerpt;
use crate::proved::invalid_ranges::refusals::{Refusal, refused};
use crate::proved::invalid_strings::refusals::explain;
use crate::proved::semver_parser::RangeError;
use crate::proved::semver_ranges::dialect::Dialect;
use crate::rattle_std::AllocError;

/// Returns the message for an error: the error and the range, and two more lines with the offset
/// and the reason. A long string is shortened. `Err` means out of memory.
///
/// For `1.2 || 3` in Cargo's dialect:
///
/// ```text
/// not a range: "1.2 || 3"
///     1.2 || 3
///         ^ at offset 4: Cargo doesn't accept ||; npm does
/// ```
pub(crate) fn refused_text(
    dialect: Dialect,
    error: &RangeError,
    text: &str,
) -> Result<String, AllocError> {
    let mut written = String::new();
    match refused(dialect, text)? {
        Some(refusal) => write_refusal(&mut written, &refusal, text)?,
        None => write!(written, "{}: {}", words_of(error), Excerpt::round(text, 0))?,
    }
    Ok(written)
}

/// Returns the message for an invalid version, in the same form. `Err` means out of memory.
///
/// ```text
/// invalid version: "1.2"
///     1.2
///        ^ at the end: there are fewer than three numbers
/// ```
pub(crate) fn refused_version(
    dialect: Dialect,
    text: &str,
) -> Result<String, AllocError> {
    let mut written = String::new();
    let Some(refusal) = explain(text.as_bytes(), dialect.grammar())? else {
        return Ok(written);
    };
    let excerpt = Excerpt::round(text, refusal.offset);
    write!(written, "invalid version: {excerpt}")?;
    excerpt.write_pointed(&mut written)?;
    write_place(&mut written, refusal.offset, text.len())?;
    write!(written, ": {}", refusal.reason)?;
    Ok(written)
}

/// Returns the message for an error in one line, without the range:
/// `not a range (at offset 4: Cargo doesn't accept ||; npm does)`. `Err` means out of memory.
pub fn refused_line(
    dialect: Dialect,
    error: &RangeError,
    text: &str,
) -> Result<String, AllocError> {
    let found = refused(dialect, text)?;
    line_of(error, &found, text.len())
}

/// Returns the message for an error in a string of `len` bytes. `Err` means out of memory.
fn line_of(
    error: &RangeError,
    found: &Option<Refusal>,
    len: usize,
) -> Result<String, AllocError> {
    match found {
        Some(refusal) => {
            let mut line = words_of(&refusal.error).fallible_to_string()?;
            line.fallible_push_str(" (")?;
            write_why(&mut line, refusal, len)?;
            line.fallible_push_str(")")?;
            Ok(line)
        }
        None => words_of(error).fallible_to_string(),
    }
}

/// Returns the kind of the error in words.
fn words_of(error: &RangeError) -> &'static str {
    match error {
        RangeError::NotARange => "not a range",
        RangeError::NumberTooLarge => "number too large",
        RangeError::OutOfMemory => "out of memory",
    }
}

/// Writes the lines of an error with its offset.
fn write_refusal(
    out: &mut String,
    refusal: &Refusal,
    text: &str,
) -> Result<(), AllocError> {
    let excerpt = Excerpt::round(text, refusal.offset);
    write!(out, "{}: {excerpt}", words_of(&refusal.error))?;
    excerpt.write_pointed(out)?;
    write_why(out, refusal, text.len())
}

/// Writes the offset and the reason of an error in a string of `len` bytes.
fn write_why(out: &mut String, refusal: &Refusal, len: usize) -> Result<(), AllocError> {
    write_place(out, refusal.offset, len)?;
    write!(out, ": {}", refusal.reason)
}

/// Writes an offset in a string of `len` bytes.
fn write_place(out: &mut String, offset: usize, len: usize) -> Result<(), AllocError> {
    if offset < len {
        write!(out, "at offset {offset}")
    } else {
        out.fallible_push_str("at the end")
    }
}
