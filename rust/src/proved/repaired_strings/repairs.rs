// Made by tools/erase.py from crates/repaired_strings/src/repairs.rt; not edited by hand.
//! Repairs strings: replaces the parts that errors are about, until the string is valid.

use crate::rattle_std::prelude::*;
use crate::proved::repaired_strings::errors::{Expected, StringError, first_error};
use crate::proved::repaired_strings::spans::span_at;
use crate::proved::invalid_strings::reasons::Reason;
use crate::proved::semver_ranges::dialect::Dialect;
use crate::proved::semver_texts::white_space::is_ascii_white_space;
use crate::rattle_std::AllocError;

/// How many parts of a string are replaced at most.
const MOST_REPAIRS: usize = 32;

/// Returns the valid string that may have been meant by an invalid one, or `None` if none is known.
/// It repairs one error after the other, and replaces only the span of each.
///
/// `=>1.2` gives `>=1.2`, and in Cargo's dialect `>=1 <2` gives `>=1 , <2`. A valid string is
/// returned as it is.
///
/// # Errors
///
/// `AllocError` if an allocation fails.
pub fn repaired(
    expected: Expected,
    dialect: Dialect,
    text: &str,
) -> Result<Option<String>, AllocError> {
    let mut now = String::fallible_from_str(text)?;
    for _ in 0..MOST_REPAIRS {
        let Some(error) = first_error(expected, dialect, now.as_str())? else {
            return Ok(Some(now));
        };
        let Some(next) = with_repair(expected, dialect, now.as_str(), error)? else {
            return Ok(None);
        };
        now = next;
    }
    Ok(None)
}

/// Returns the string with the span of its error replaced, or `None` if nothing is known that can
/// replace it.
fn with_repair(
    expected: Expected,
    dialect: Dialect,
    text: &str,
    error: StringError,
) -> Result<Option<String>, AllocError> {
    let span = span_at(text, error.offset, error.reason);
    let before = &text[..span.start];
    let after = &text[span.end..];
    let old = &text[span.start..span.end];
    let Some((new, kept)) = replacement(expected, error.reason, old, after) else {
        return Ok(None);
    };
    let mut result = String::fallible_from_str(before)?;
    result.fallible_push_str(new)?;
    result.fallible_push_str(kept)?;
    result.fallible_push_str(after)?;
    Ok(Some(result))
}

/// Returns what replaces the part of a string that an error is about, in two parts, of which the
/// second is from the old part.
fn replacement<'t>(
    expected: Expected,
    reason: Reason,
    old: &'t str,
    after: &str,
) -> Option<(&'static str, &'t str)> {
    match (expected, reason) {
        (_, Reason::LeadingZero) => Some(("", without_zeros(old))),
        (Expected::Version, Reason::NotThreeNumbers) => Some((".0", old)),
        (_, Reason::CargoV | Reason::CrateV) => Some(("", "")),
        (_, Reason::CargoCommas) => Some((", ", old)),
        (_, Reason::NpmComma | Reason::CrateComma) => Some((space_before(after), "")),
        (Expected::Version, _) => in_version(old),
        (Expected::Range, _) => match slip(old) {
            Some(meant) => Some((meant, "")),
            None => None,
        },
    }
}

/// Returns a number without its leading zeros.
fn without_zeros(number: &str) -> &str {
    let Some(rest) = number.strip_prefix("0") else {
        return number;
    };
    if rest.is_empty() {
        return number;
    }
    without_zeros(rest)
}

/// Returns what replaces a comma between comparators that are separated by spaces.
fn space_before(after: &str) -> &'static str {
    match after.as_bytes() {
        [b' ', ..] => "",
        _ => " ",
    }
}

/// Returns what replaces a part of a version that isn't allowed there, if something can.
fn in_version(old: &str) -> Option<(&'static str, &'static str)> {
    if is_blank(old) || old == "=" {
        Some(("", ""))
    } else {
        None
    }
}

/// Returns whether a string is empty or only white space.
fn is_blank(text: &str) -> bool {
    text.as_bytes()
        .iter()
        .all(|&byte| is_ascii_white_space(byte))
}

/// Returns the operator that is meant by characters of operators that no range has.
fn slip(old: &str) -> Option<&'static str> {
    match old {
        "=>" => Some(">="),
        "=<" => Some("<="),
        "==" | "===" => Some("="),
        "~=" | "=~" | "~>" | "~~" => Some("~"),
        "^^" | "^=" | "=^" => Some("^"),
        "&&" => Some(" "),
        _ => None,
    }
}
