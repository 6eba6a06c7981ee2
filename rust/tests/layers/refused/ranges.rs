//! Functions that read ranges as Cargo and npm read them.

use super::Ending;
use crate::proved::semver_parser::{Compat, RangeError, RangeSet};
use crate::proved::semver_ranges::dialect::Dialect;
use crate::proved::invalid_ranges::refusals::refused;
use crate::proved::tool_ranges::{cargo, npm};
use std::fmt::{self, Write};

fn ending(read: Result<RangeSet, RangeError>, printed: &str, compat: Compat) -> Ending {
    match read {
        Ok(set) => Ending::full_if(set.compat == compat && prints_as(&set, printed)),
        Err(RangeError::OutOfMemory) => Ending::Refused,
        Err(_) => Ending::Wrong,
    }
}

/// Reads a requirement in Cargo's dialect.
pub fn requirement() -> Ending {
    ending(
        cargo::rewrite("1.2, >1, <3.0.0-rc"),
        ">=1.2.0 <2.0.0-0 >=2.0.0 <3.0.0-rc",
        Compat::Cargo,
    )
}

/// Requirements that are invalid by their grammar or their numbers give an error without a request.
pub fn refused_requirements() -> Ending {
    let no_comma = cargo::rewrite("1 2");
    let tab = cargo::rewrite("1,\t2");
    let grammar_first = cargo::rewrite("99999999999999999999, 1,");
    let bound = cargo::rewrite("1, >1.18446744073709551615");
    Ending::full_if(
        matches!(no_comma, Err(RangeError::NotARange))
            && matches!(tab, Err(RangeError::NotARange))
            && matches!(grammar_first, Err(RangeError::NotARange))
            && matches!(bound, Err(RangeError::NumberTooLarge)),
    )
}

/// Reads a range in npm's dialect.
pub fn npm_range() -> Ending {
    ending(npm::rewrite(">1.2 <3 || v1.2.3-b"), ">=1.3.0 <3.0.0-0 || =1.2.3-b", Compat::Npm)
}

/// Ranges of npm that are invalid by their grammar or their numbers give an error without a
/// request.
pub fn refused_npm_ranges() -> Ending {
    let comma = npm::rewrite("1, 2");
    let character = npm::rewrite("1 || \u{200b}2");
    let grammar_first = npm::rewrite("99999999999999999999 || 1,");
    let bound = npm::rewrite("1 || >1.18446744073709551615");
    Ending::full_if(
        matches!(comma, Err(RangeError::NotARange))
            && matches!(character, Err(RangeError::NotARange))
            && matches!(grammar_first, Err(RangeError::NotARange))
            && matches!(bound, Err(RangeError::NumberTooLarge)),
    )
}

/// Finds the offset of an invalid range. A valid range makes no request.
pub fn range_error() -> Ending {
    if !matches!(refused(Dialect::Npm, "1.2 || 3"), Ok(None)) {
        return Ending::Wrong;
    }
    match refused(Dialect::Cargo, "1.2 || 3") {
        Ok(Some(refusal)) => Ending::full_if(refusal.offset == 4),
        Ok(None) => Ending::Wrong,
        Err(_) => Ending::Refused,
    }
}

/// What is still to be printed of a string.
struct Rest<'text>(&'text str);

impl fmt::Write for Rest<'_> {
    fn write_str(&mut self, printed: &str) -> fmt::Result {
        self.0 = self.0.strip_prefix(printed).ok_or(fmt::Error)?;
        Ok(())
    }
}

/// Returns whether the set is printed as the string, without allocating.
fn prints_as(set: &RangeSet, text: &str) -> bool {
    let mut rest = Rest(text);
    write!(rest, "{set}").is_ok() && rest.0.is_empty()
}
