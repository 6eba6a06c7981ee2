// Made by tools/erase.py from crates/library_tests/src/printing.rt; not edited by hand.
//! Values printed to a writer that fails.
#![cfg(feature = "std")]

use crate::rattle_std::prelude::*;
use super::writers::{ALL_AT_ONCE, Limited, Refusal};
use crate::proved::semver_parser::parser::{Error, Parser};
use crate::proved::semver_parser::{Comparator, Compat, Range, RangeError, RangeSet, version};
use crate::rattle_std::fmt::Write;
use crate::rattle_std::{fmt, io};

/// Writes which identifiers and versions are printed as wanted.
pub fn write_versions(rt: &impl Print) -> io::Result<()> {
    for text in ["0", "7", "beta", "01", "a-b-1"] {
        let Ok(mut parser) = Parser::new(text) else {
            continue;
        };
        if let Ok(identifier) = parser.identifier() {
            write_printed(rt, &identifier, text)?;
        }
    }
    for text in [
        "1.2.3",
        "1.2.3-a",
        "1.2.3-7.beta.x",
        "1.2.3+01",
        "1.2.3+1.b.2",
        "10.0.18446744073709551615-7.beta+01.a-b",
    ] {
        match version::parse(text) {
            Ok(version) => write_printed(rt, &version, text)?,
            Err(error) => crate::rattle_std::fallible_println!(rt; "{error}")?,
        }
    }
    Ok(())
}

/// Writes which sets are printed as wanted, and their ranges, the comparators of these, and the
/// parts of these.
pub fn write_sets(rt: &impl Print) -> io::Result<()> {
    let ranges = Vec::new();
    let compat = Compat::Npm;
    write_printed(rt, &RangeSet { ranges, compat }, "")?;
    let comparator_set = Vec::new();
    let no_comparators = Range {
        comparator_set,
        compat,
    };
    write_printed(rt, &no_comparators, "")?;
    for text in [
        "=1.2.3",
        ">=1.2.3-7.beta <2.0.0 || =4.5.6-a",
        "<1.0.0 <=1.0.0 >1.0.0 || >=1.0.0-1.b.2 || =0.0.18446744073709551615",
    ] {
        match RangeSet::try_parse(text, Compat::Npm) {
            Ok(set) => {
                write_printed(rt, &set, text)?;
                for (range, text) in set.ranges.iter().zip(text.split(" || ")) {
                    write_range(rt, range, text)?;
                }
            }
            Err(error) => crate::rattle_std::fallible_println!(rt; "{error}")?,
        }
    }
    Ok(())
}

fn write_range(rt: &impl Print, range: &Range, text: &str) -> io::Result<()> {
    write_printed(rt, range, text)?;
    for (comparator, text) in range.comparator_set.iter().zip(text.split(' ')) {
        write_comparator(rt, comparator, text)?;
    }
    Ok(())
}

fn write_comparator(
    rt: &impl Print,
    comparator: &Comparator,
    text: &str,
) -> io::Result<()> {
    write_printed(rt, comparator, text)?;
    let version = text.trim_start_matches(['<', '>', '=']);
    let operator = text.strip_suffix(version).unwrap_or(text);
    write_printed(rt, &comparator.op, operator)?;
    if let Some((_, pre)) = text.split_once('-') {
        for (identifier, text) in comparator.pre.iter().zip(pre.split('.')) {
            write_printed(rt, identifier, text)?;
        }
    }
    Ok(())
}

/// Writes which errors are printed as wanted: those that reading a version returns, and those made
/// by hand.
pub fn write_errors(rt: &impl Print) -> io::Result<()> {
    for (text, sentence) in [
        ("1.2", "expected more input"),
        ("a.b.c", "encountered unexpected token: AlphaNumeric(\"a\")"),
        ("1é", "lexer error: UnexpectedChar('é')"),
        (
            "1.2.3 a 7",
            "expected end of input, but got: [AlphaNumeric(\"a\"), Whitespace(7, 8), Numeric(7)]",
        ),
    ] {
        if let Err(error) = version::parse(text) {
            write_error(rt, &error, sentence)?;
        }
    }
    write_error(
        rt,
        &Error::EmptyPredicate,
        "encountered empty predicate",
    )?;
    write_error(rt, &Error::EmptyRange, "encountered empty range")?;
    write_error(rt, &Error::OutOfMemory, "out of memory")?;
    write_printed(rt, &RangeError::NotARange, "not a range")?;
    write_printed(rt, &RangeError::NumberTooLarge, "number too large")?;
    write_printed(rt, &RangeError::OutOfMemory, "out of memory")
}

/// Writes whether the error is printed as its sentence, and its text.
fn write_error(
    rt: &impl Print,
    error: &Error<'_>,
    sentence: &str,
) -> io::Result<()> {
    if error.text()?.as_str() != sentence {
        crate::rattle_std::fallible_println!(rt; "[{sentence}] is not the text of the error")?;
    }
    write_printed(rt, error, sentence)
}

/// Writes the string, and whether the value is printed as that.
fn write_printed<T: fmt::Display>(
    rt: &impl Print,
    value: &T,
    text: &str,
) -> io::Result<()> {
    for left in 0..=text.len() {
        if !prints(value, text, left) {
            return crate::rattle_std::fallible_println!(rt; "[{text}] is wrong at a writer of {left} bytes");
        }
    }
    crate::rattle_std::fallible_println!(rt; "[{text}] prints")
}

/// Returns whether the value is printed as the string to a writer that takes `left` bytes: all of
/// it if that is enough, and otherwise a prefix, an error, and nothing more.
fn prints<T: fmt::Display>(value: &T, text: &str, left: usize) -> bool {
    let mut out = Limited::new(left, ALL_AT_ONCE, Refusal::Fail);
    let is_printed = write!(out, "{value}").is_ok();
    let is_whole = out.taken.as_slice() == text.as_bytes();
    let is_front = text.as_bytes().starts_with(out.taken.as_slice());
    let is_enough = left == text.len();
    is_printed == is_enough && is_whole == is_enough && is_front && out.late_calls == 0
}
