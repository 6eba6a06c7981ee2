// Made by tools/erase.py from crates/small_inputs/src/versions.rt; not edited by hand.
//! Calls that read a version or its tokens.
#![cfg(feature = "std")]

use crate::rattle_std::prelude::*;
use crate::proved::small_inputs::checksum::Checksum;
use crate::proved::invalid_strings::refusals::explain;
use crate::proved::semver_parser::lexer::{self, Lexer, Token};
use crate::proved::semver_parser::parser::{Error, Parser};
use crate::proved::semver_parser::version::{self, Grammar, Identifier, Version, VersionRef};
use crate::proved::semver_versions::version::is_version_at_any_length;
use crate::rattle_std::cmp::Ordering;
use crate::rattle_std::io;
use crate::rattle_std::io::Write;

const GRAMMARS: [Grammar; 3] = [Grammar::Crate, Grammar::Cargo, Grammar::Npm];

/// Versions with which others are compared.
const OTHERS: [&str; 5] = [
    "0.0.0",
    "1.2.3",
    "1.2.3-a",
    "1.2.3-0",
    "18446744073709551615.0.0-1",
];

/// Reads a version, by `parse` and by its tokens.
pub fn add_parsed(bytes: &[u8], sum: &mut Checksum) -> io::Result<()> {
    let Ok(text) = crate::rattle_std::str::from_utf8(bytes) else {
        return Ok(());
    };
    add_outcome(&version::parse(text), sum)?;
    add_outcome(&version::parse_by_tokens(text), sum)
}

fn add_outcome(
    read: &Result<Version, Error<'_>>,
    sum: &mut Checksum,
) -> io::Result<()> {
    match read {
        Ok(version) => add_version(version, sum),
        Err(error) => {
            sum.add_bytes(error.text()?.as_str().as_bytes());
            write!(sum, "{error};")
        }
    }
}

fn add_version(version: &Version, sum: &mut Checksum) -> io::Result<()> {
    add_kinds(version.pre.as_slice(), sum);
    add_kinds(version.build.as_slice(), sum);
    write!(sum, "{version};")
}

/// Adds which of some identifiers are numbers.
fn add_kinds(identifiers: &[Identifier], sum: &mut Checksum) {
    for identifier in identifiers {
        match identifier {
            Identifier::Numeric(number) => sum.add(*number),
            Identifier::AlphaNumeric(text) => sum.add_bytes(text.as_str().as_bytes()),
        }
    }
    sum.add(1);
}

/// Reads the tokens of a string.
pub fn add_tokens(bytes: &[u8], sum: &mut Checksum) -> io::Result<()> {
    let Ok(text) = crate::rattle_std::str::from_utf8(bytes) else {
        return Ok(());
    };
    for item in Lexer::new(text) {
        match item {
            Ok(token) => add_token(&token, sum)?,
            Err(lexer::Error::UnexpectedChar(character)) => write!(sum, "{character};")?,
        }
    }
    Ok(())
}

fn add_token(token: &Token<'_>, sum: &mut Checksum) -> io::Result<()> {
    sum.add(u64::from(token.is_whitespace()));
    sum.add(u64::from(token.is_wildcard()));
    match token {
        Token::Whitespace(from, to) => {
            sum.add(*from as u64);
            sum.add(*to as u64);
        }
        Token::Numeric(number) => sum.add(*number),
        Token::AlphaNumeric(word) => sum.add_bytes(word.as_bytes()),
        sign => write!(sum, "{sign:?};")?,
    }
    Ok(())
}

/// Makes each call of a parser, one after the other.
pub fn add_steps(bytes: &[u8], sum: &mut Checksum) -> io::Result<()> {
    let Ok(text) = crate::rattle_std::str::from_utf8(bytes) else {
        return Ok(());
    };
    let mut parser = match Parser::new(text) {
        Ok(parser) => parser,
        Err(error) => return write!(sum, "{error};"),
    };
    match parser.component() {
        Ok(component) => sum.add(component.unwrap_or(1)),
        Err(error) => write!(sum, "{error};")?,
    }
    match parser.dot_component() {
        Ok((component, is_wildcard)) => {
            sum.add(component.unwrap_or(1));
            sum.add(u64::from(is_wildcard));
        }
        Err(error) => write!(sum, "{error};")?,
    }
    match parser.dot_numeric() {
        Ok(number) => sum.add(number),
        Err(error) => write!(sum, "{error};")?,
    }
    match parser.numeric() {
        Ok(number) => sum.add(number),
        Err(error) => write!(sum, "{error};")?,
    }
    sum.add(u64::from(parser.is_eof()));
    match parser.identifier() {
        Ok(identifier) => match identifier.try_concat("a") {
            Ok(joined) => write!(sum, "{joined};")?,
            Err(_) => write!(sum, "out of memory;")?,
        },
        Err(error) => write!(sum, "{error};")?,
    }
    match parser.version() {
        Ok(version) => add_version(&version, sum)?,
        Err(error) => write!(sum, "{error};")?,
    }
    match parser.tail() {
        Ok(tokens) => {
            for token in tokens.iter() {
                add_token(token, sum)?;
            }
        }
        Err(error) => write!(sum, "{error};")?,
    }
    Ok(())
}

/// Reads a version in the crate's grammar, copied and borrowed.
pub fn add_read(bytes: &[u8], sum: &mut Checksum) -> io::Result<()> {
    if let Some(version) = version::read_bytes(bytes)? {
        add_version(&version, sum)?;
    }
    if let Some(borrowed) = version::read_ref_bytes(bytes) {
        add_ref(&borrowed, sum);
    }
    let Ok(text) = crate::rattle_std::str::from_utf8(bytes) else {
        return Ok(());
    };
    if let Some(version) = version::read(text)? {
        add_version(&version, sum)?;
    }
    if let Some(borrowed) = version::read_ref(text) {
        add_ref(&borrowed, sum);
    }
    Ok(())
}

fn add_ref(borrowed: &VersionRef<'_>, sum: &mut Checksum) {
    sum.add(borrowed.major());
    sum.add(borrowed.minor());
    sum.add(borrowed.patch());
    sum.add(u64::from(borrowed.is_pre_release()));
    sum.add(borrowed.pre_offset() as u64);
    sum.add_bytes(borrowed.pre().as_bytes());
    sum.add(borrowed.build_offset() as u64);
    sum.add_bytes(borrowed.build().as_bytes());
}

/// Reads a version in each grammar.
pub fn add_borrowed(bytes: &[u8], sum: &mut Checksum) -> io::Result<()> {
    for grammar in GRAMMARS {
        sum.add(u64::from(is_version_at_any_length(bytes, grammar)));
        if let Some(borrowed) = version::read_ref_in(bytes, grammar) {
            add_ref(&borrowed, sum);
            add_version(&borrowed.version()?, sum)?;
            add_kinds(borrowed.pre_identifiers()?.as_slice(), sum);
            add_kinds(borrowed.build_identifiers()?.as_slice(), sum);
        }
    }
    Ok(())
}

/// Compares the version of a string, as each grammar reads it, with other versions.
pub fn add_compared(bytes: &[u8], sum: &mut Checksum) -> io::Result<()> {
    for grammar in GRAMMARS {
        let Some(borrowed) = version::read_ref_in(bytes, grammar) else {
            continue;
        };
        let read = borrowed.version()?;
        for other in OTHERS {
            if let Some(version) = version::read(other)? {
                add_order(borrowed.compare_with(&version), sum);
                add_order(version::cmp_precedence(&read, &version), sum);
                add_order(read.cmp(&version), sum);
            }
            if let Some(version) = version::read_ref_in(other.as_bytes(), grammar) {
                add_order(borrowed.compare(&version), sum);
            }
        }
    }
    Ok(())
}

fn add_order(order: Ordering, sum: &mut Checksum) {
    sum.add(match order {
        Ordering::Less => 1,
        Ordering::Equal => 2,
        Ordering::Greater => 3,
    });
}

/// Returns where and why a string is an invalid version in each grammar.
pub fn add_refused(bytes: &[u8], sum: &mut Checksum) -> io::Result<()> {
    for grammar in GRAMMARS {
        if let Some(refusal) = explain(bytes, grammar)? {
            sum.add(refusal.offset as u64);
            sum.add_bytes(refusal.reason.name().as_bytes());
        }
        sum.add(1);
    }
    Ok(())
}
