// Made by tools/erase.py from crates/semver_parser/src/report.rt; not edited by hand.
//! The output of the program `semver-parser` for a string, read as a version and as a range in each
//! mode, and its exit status.
#![cfg(feature = "std")]

use crate::rattle_std::prelude::*;
use crate::proved::semver_parser::parser;
use crate::proved::semver_parser::version::{self, Version};
use crate::proved::semver_ranges::{Compat, RangeError, RangeSet};
use crate::proved::semver_texts::writing::write_whole;
use crate::rattle_std::io::{self, Write};

/// What a line shows after its label.
enum Shown {
    /// A printed value.
    Value(String),
    /// The word of an error.
    Word(&'static str),
}

/// Writes three lines for a string: `version: ` with the version, and `cargo: ` and `npm: ` with
/// the range set in Cargo and in npm mode. Each line has a printed value or an error word. Returns
/// whether at least one line has no error word.
///
/// For `1.2.3` it writes `version: 1.2.3`, `cargo: >=1.2.3 <2.0.0` and `npm: =1.2.3`; for `1.2` the
/// first line is `version: unexpected-end`. The error words are `unexpected-end`,
/// `unexpected-token`, `unexpected-char` and `more-input` for versions, `not-a-range` and
/// `number-too-large` for ranges, and `out-of-memory` for both.
///
/// # Errors
///
/// Only if a write failed, was interrupted, or took no byte. Then nothing more is written, and
/// `out` got a prefix of the lines.
pub fn run<W: Write>(text: &str, out: &mut W) -> Result<bool, io::Error> {
    let version = version_shown(text);
    let cargo = range_shown(text, Compat::Cargo);
    let npm = range_shown(text, Compat::Npm);
    write_lines(out, &version, &cargo, &npm)
}

/// Writes the lines, and returns whether at least one has no error word.
fn write_lines<W: Write>(
    out: &mut W,
    version: &Shown,
    cargo: &Shown,
    npm: &Shown,
) -> io::Result<bool> {
    write_line(out, "version: ", version)?;
    write_line(out, "cargo: ", cargo)?;
    write_line(out, "npm: ", npm)?;
    Ok(version.is_value() || (cargo.is_value() || npm.is_value()))
}

/// Returns the exit status of a run: 0 if at least one line has no error word, 1 if each has one,
/// and 2 after a failed write.
///
/// For `Ok(false)` it is 1.
pub fn status(ran: &Result<bool, io::Error>) -> u8 {
    match ran {
        Ok(true) => 0,
        Ok(false) => 1,
        Err(_) => 2,
    }
}

/// Returns what the line of the version shows.
fn version_shown(text: &str) -> Shown {
    match version::parse(text) {
        Ok(version) => printed_version(&version),
        Err(error) => Shown::Word(version_error_word(&error)),
    }
}

/// Returns the printed version, or the word for out of memory.
fn printed_version(version: &Version) -> Shown {
    match version.fallible_to_string() {
        Ok(text) => Shown::Value(text),
        Err(_) => Shown::Word("out-of-memory"),
    }
}

/// Returns what the line of a range set in a mode shows.
fn range_shown(text: &str, compat: Compat) -> Shown {
    match RangeSet::try_parse(text, compat) {
        Ok(set) => printed_set(&set),
        Err(error) => Shown::Word(range_error_word(&error)),
    }
}

/// Returns the word for an error of a range string.
fn range_error_word(error: &RangeError) -> &'static str {
    match error {
        RangeError::NotARange => "not-a-range",
        RangeError::NumberTooLarge => "number-too-large",
        RangeError::OutOfMemory => "out-of-memory",
    }
}

/// Returns the printed set, or the word for out of memory.
fn printed_set(set: &RangeSet) -> Shown {
    match set.fallible_to_string() {
        Ok(text) => Shown::Value(text),
        Err(_) => Shown::Word("out-of-memory"),
    }
}

/// Returns the word for an error of a version string.
fn version_error_word(error: &parser::Error<'_>) -> &'static str {
    match error {
        parser::Error::UnexpectedEnd => "unexpected-end",
        parser::Error::UnexpectedToken(_) => "unexpected-token",
        parser::Error::Lexer(_) => "unexpected-char",
        parser::Error::MoreInput(_) => "more-input",
        parser::Error::EmptyPredicate => "empty-predicate",
        parser::Error::EmptyRange => "empty-range",
        parser::Error::OutOfMemory => "out-of-memory",
    }
}

impl Shown {
    /// Returns whether it is a printed value.
    fn is_value(&self) -> bool {
        matches!(self, Shown::Value(_))
    }

    /// Returns its string.
    fn as_str(&self) -> &str {
        match self {
            Shown::Value(text) => text.as_str(),
            Shown::Word(word) => word,
        }
    }
}

/// Writes one line: the label, what is shown, and a line feed.
fn write_line<W: Write>(out: &mut W, label: &str, shown: &Shown) -> io::Result<()> {
    write_text(out, label)?;
    write_text(out, shown.as_str())?;
    write_text(out, "\n")
}

/// Writes all of a string.
fn write_text<W: Write>(out: &mut W, text: &str) -> io::Result<()> {
    write_whole(out, text.as_bytes())
}
