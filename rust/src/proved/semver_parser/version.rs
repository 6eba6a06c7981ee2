// Made by tools/erase.py from crates/semver_parser/src/version.rt; not edited by hand.
//! Reads version strings into plain data, and prints versions. [`parse`] also says what is wrong
//! with an invalid version.

use crate::rattle_std::prelude::*;
use crate::proved::semver_parser::parser::{self, Parser};
pub use crate::proved::semver_versions::version::{
    Digits, Grammar, Identifier, Version, VersionRef, cmp_precedence, read, read_bytes, read_ref,
    read_ref_bytes, read_ref_in,
};

/// Reads a version string. Printed, the version is the string without the white space around it,
/// and reading what was printed gives the same version. It is the version that `read` returns,
/// except that an invalid string gives an error.
///
/// # Errors
///
/// The first of these from the left:
///
/// - `UnexpectedEnd`: the string ends before the version is complete. The empty string is an
///   example.
/// - `UnexpectedToken`: a token isn't allowed there, such as the second hyphen of `1.2.3--1`, or
///   `AlphaNumeric("01")` in `01.0.0`.
/// - `MoreInput`: a version is followed by something else. The error holds all tokens after the
///   version and its white space: `1.2.3 a.b` gives `AlphaNumeric("a")`, `Dot`,
///   `AlphaNumeric("b")`.
/// - `Lexer`: a character begins no token. Since one token is read ahead, this error comes before
///   an error at the preceding token: `a/` gives `Lexer(UnexpectedChar('/'))`. After a complete
///   version it comes before `MoreInput`.
/// - `OutOfMemory`: an allocation failed. The lists of identifiers, each identifier that isn't a
///   number, and the tokens of `MoreInput` are allocated. A version without a pre-release and build
///   metadata never gives this error.
///
/// ```
/// use semver_parser::parser::Error;
/// use semver_parser::version::{self, Identifier};
///
/// let version = version::parse(" 1.2.3-rc.4\n")?;
/// assert_eq!((version.major, version.minor, version.patch), (1, 2, 3));
/// assert_eq!(version.pre, [Identifier::AlphaNumeric("rc".to_string()), Identifier::Numeric(4)]);
/// assert_eq!(version.to_string(), "1.2.3-rc.4");
/// assert_eq!(version::parse("1.2"), Err(Error::UnexpectedEnd));
/// # Ok::<(), Error>(())
/// ```
#[inline(always)]
pub fn parse(input: &str) -> Result<Version, parser::Error<'_>> {
    match read(input) {
        Ok(Some(version)) => Ok(version),
        Ok(None) => Ok(parse_by_tokens(input)?),
        Err(_) => Err(parser::Error::OutOfMemory),
    }
}

/// Returns the result or the error of [`parse`], using only the tokens. It takes less time for an
/// invalid version, if [`read_ref`] has shown that it is one.
#[inline(never)]
pub fn parse_by_tokens(input: &str) -> Result<Version, parser::Error<'_>> {
    let mut parser = Parser::new(input)?;
    let version = parser.version()?;
    if parser.is_eof() {
        return Ok(version);
    }
    let rest = parser.tail()?;
    Err(parser::Error::MoreInput(rest))
}
