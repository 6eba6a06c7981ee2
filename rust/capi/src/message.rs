//! Strings for C: the texts of numbers, and the sentence of an error.

use crate::errors::{Error, Problem};
use crate::proved::invalid_strings::escaped::Escaped;
use crate::rattle_std::FallibleToString;
use crate::shared::{cannot_upgrade, Reason, WithCarets};
use core::ffi::c_char;
use core::fmt::{self, Display, Formatter};
use core::{mem::ManuallyDrop, ptr};

// The tables are written by build.rs from the crate's texts.
include!(concat!(env!("OUT_DIR"), "/texts.rs"));

pub static STATUS_TEXTS: [&str; 9] = [
    "no error\0",
    "invalid range\0",
    "number too large in range\0",
    "invalid version\0",
    "out of memory\0",
    "invalid argument\0",
    "the ranges have different dialects\0",
    "the ranges have different rules for pre-releases\0",
    "the requirement can't be raised to this version\0",
];

pub static STATUS_NAMES: [&str; 9] = [
    "ok\0",
    "invalid-range\0",
    "number-too-large\0",
    "invalid-version\0",
    "out-of-memory\0",
    "invalid-argument\0",
    "different-dialects\0",
    "different-pre-releases\0",
    "cannot-upgrade\0",
];

fn text_of(texts: &[&'static str], number: i32) -> Option<&'static str> {
    texts.get(usize::try_from(number).ok()?).copied()
}

/// Returns the zero-terminated text of a number, or null if there is no such number.
pub fn c_text(texts: &[&'static str], number: i32) -> *const c_char {
    text_of(texts, number).map_or(ptr::null(), |text| text.as_ptr().cast())
}

/// Prints a value as a zero-terminated string, which `semver_parser_free` frees.
pub fn printed<'a>(value: impl Display) -> Result<*mut c_char, Problem<'a>> {
    let string = format_args!("{value}\0").fallible_to_string()?;
    Ok(ManuallyDrop::new(string).as_mut_ptr().cast())
}

/// Makes the message of an error, whose string is `of`. With `caret`, it is what `{:#}` prints in
/// Rust.
pub fn of_error<'a>(error: &Error, of: &[u8], caret: bool) -> Result<*mut c_char, Problem<'a>> {
    if error.is_about_upgrade() {
        return printed(cannot_upgrade(&Decoded(of).fallible_to_string()?)?);
    }
    let status = text_of(&STATUS_TEXTS, error.status).unwrap_or("unknown error\0");
    let status = status.trim_end_matches('\0');
    match (Reason::from_number(error.reason), error.expected()) {
        (None, _) => printed(status),
        (Some(reason), Some(expected)) if caret => {
            let (before, after) = of.split_at(of.len().min(error.offset));
            let before = Decoded(before).fallible_to_string()?;
            let string = format_args!("{before}{}", Decoded(after)).fallible_to_string()?;
            printed(WithCarets { expected, reason, string: &string, offset: before.len() })
        }
        (Some(reason), _) => sentence(status, of, error.offset, reason),
    }
}

/// How many bytes of a long string are shown before and after the offset.
const REACH: usize = 32;

/// Makes the sentence of an error in a string, of which it shows the part around the offset.
fn sentence<'a>(
    status: &str,
    of: &[u8],
    offset: usize,
    reason: Reason,
) -> Result<*mut c_char, Problem<'a>> {
    let at = of.len().min(offset);
    let begin = boundary(of, at.saturating_sub(REACH));
    let end = boundary(of, of.len().min(at + REACH)).max(at);
    let left = if begin > 0 { "..." } else { "" };
    let right = if end < of.len() { "..." } else { "" };
    let shown = Decoded(&of[begin..end]).fallible_to_string()?;
    let shown = Escaped { text: &shown };
    printed(format_args!("{status} {left}\"{shown}\"{right} at offset {offset}: {reason}"))
}

/// Returns the last offset up to the given one that isn't within a character.
fn boundary(bytes: &[u8], offset: usize) -> usize {
    let is_within = |at: &usize| bytes.get(*at).is_some_and(|byte| byte & 0xC0 == 0x80);
    (offset.saturating_sub(3)..=offset).rev().find(|at| !is_within(at)).unwrap_or(offset)
}

/// A string from its bytes, with U+FFFD instead of those that aren't UTF-8.
struct Decoded<'a>(&'a [u8]);

impl Display for Decoded<'_> {
    fn fmt(&self, f: &mut Formatter<'_>) -> fmt::Result {
        self.0.utf8_chunks().try_for_each(|it| {
            f.write_str(it.valid())?;
            f.write_str(if it.invalid().is_empty() { "" } else { "\u{FFFD}" })
        })
    }
}
