// Made by tools/erase.py from crates/replayed_cases/src/versions.rt; not edited by hand.
//! Versions, written by their fields and as they are printed.
#![cfg(feature = "std")]

use crate::rattle_std::prelude::*;
use super::parsing;
use crate::proved::semver_parser::parser::{Error, Parser};
use crate::proved::semver_parser::version;
use crate::proved::semver_parser::version::{Identifier, Version};
use crate::rattle_std::io;
use crate::rattle_std::io::Write;

/// Writes the fields of a version, or the error instead.
pub fn write_version<W: Write>(answer: &Result<Version, Error<'_>>, out: &mut W) -> io::Result<()> {
    match answer {
        Ok(version) => write_fields(version, out),
        Err(error) => parsing::write_error(error, out),
    }
}

fn write_fields<W: Write>(version: &Version, out: &mut W) -> io::Result<()> {
    let (major, minor, patch) = (version.major, version.minor, version.patch);
    write!(out, "{major} {minor} {patch} pre[")?;
    write_identifiers(version.pre.as_slice(), out)?;
    write!(out, "] build[")?;
    write_identifiers(version.build.as_slice(), out)?;
    write!(out, "]")
}

/// Writes the printed version, or its error.
pub fn write_printed<W: Write>(text: &str, out: &mut W) -> io::Result<()> {
    match version::parse(text) {
        Ok(version) => write!(out, "{version}"),
        Err(error) => parsing::write_error(&error, out),
    }
}

/// Writes the text of the error that reading a version returns.
pub fn write_error_text<W: Write>(text: &str, out: &mut W) -> io::Result<()> {
    match version::parse(text) {
        Ok(_) => write!(out, "no error"),
        Err(error) => match error.text() {
            Ok(text) => write!(out, "{text}"),
            Err(_) => write!(out, "OutOfMemory"),
        },
    }
}

/// Writes an identifier of one string followed by another string.
pub fn write_joined<W: Write>(
    text: &str,
    added: &str,
    out: &mut W,
) -> io::Result<()> {
    let identifier = match Parser::new(text).and_then(|mut parser| parser.identifier()) {
        Ok(identifier) => identifier,
        Err(error) => return parsing::write_error(&error, out),
    };
    match identifier.try_concat(added) {
        Ok(joined) => write_identifier(&joined, out),
        Err(_) => write!(out, "OutOfMemory"),
    }
}

fn write_identifiers<W: Write>(identifiers: &[Identifier], out: &mut W) -> io::Result<()> {
    for (i, identifier) in identifiers.iter().enumerate() {
        if i > 0 {
            write!(out, " ")?;
        }
        write_identifier(identifier, out)?;
    }
    Ok(())
}

/// Writes an identifier with its variant.
pub fn write_identifier<W: Write>(identifier: &Identifier, out: &mut W) -> io::Result<()> {
    match identifier {
        Identifier::Numeric(number) => write!(out, "Numeric({number})"),
        Identifier::AlphaNumeric(word) => write!(out, "AlphaNumeric({word})"),
    }
}
