//! The signatures of the Rust crate `semver-parser` 0.10.3 that the proved functions don't have.
//! Proved functions return an error if an allocation fails; these end the process, like std.

use crate::proved::semver_errors::conversions::UnexpectedCharacter;
use crate::rattle_std::{AllocError, FallibleToString};
use crate::version;
use crate::{lexer, parser};
use crate::{Compat, RangeError, RangeSet};
use alloc::alloc::{handle_alloc_error, Layout};
use alloc::string::String;
use core::fmt::{self, Display, Formatter};
use core::str::FromStr;

/// Ends the process as Rust does if an allocation fails.
#[cold]
pub(crate) fn out_of_memory() -> ! {
    handle_alloc_error(Layout::new::<u64>())
}

/// Returns an error or a version as a string. `to_string` of std would panic if `Display` returned
/// an error.
pub(crate) fn printed(value: impl Display) -> String {
    value
        .fallible_to_string()
        .unwrap_or_else(|_| out_of_memory())
}

impl RangeSet {
    /// Reads a range string into plain comparators, as the original crate does. Its error is a
    /// sentence; [`RangeSet::try_parse`] returns an error that a program can match.
    ///
    /// A comma is an error. The original accepts one comma after a comparator, and `semver` 0.9 to
    /// 0.11 rely on it. `range.replace(',', " ")` keeps that meaning;
    /// [`comparators`](crate::comparators) with [`Dialect::Cargo`](crate::Dialect::Cargo) reads
    /// commas as Cargo does today.
    ///
    /// # Errors
    ///
    /// The sentence of [`RangeError`], if the string isn't a range, or one of its numbers is too
    /// large.
    ///
    /// ```
    /// use semver_parser::{Compat, RangeSet};
    ///
    /// let set = RangeSet::parse("1.2.3", Compat::Cargo)?;
    /// assert_eq!(set.to_string(), ">=1.2.3 <2.0.0");
    /// assert_eq!(RangeSet::parse("1.2.3", Compat::Npm)?.to_string(), "=1.2.3");
    /// assert_eq!(RangeSet::parse("a", Compat::Npm).unwrap_err(), "not a range");
    ///
    /// let set = RangeSet::parse(&">=1.2, <2".replace(',', " "), Compat::Cargo)?;
    /// assert_eq!(set.to_string(), ">=1.2.0 <2.0.0");
    /// # Ok::<(), String>(())
    /// ```
    pub fn parse(input: &str, compat: Compat) -> Result<RangeSet, String> {
        Ok(RangeSet::try_parse(input, compat)?)
    }
}

impl FromStr for RangeSet {
    type Err = String;

    /// Reads a range string like [`RangeSet::parse`] in Cargo mode.
    fn from_str(input: &str) -> Result<RangeSet, String> {
        RangeSet::parse(input, Compat::Cargo)
    }
}

impl From<RangeError> for String {
    fn from(error: RangeError) -> String {
        match error {
            RangeError::OutOfMemory => out_of_memory(),
            error => printed(error),
        }
    }
}

impl version::Identifier {
    /// Returns the identifier as a string followed by `add_str`, always as `AlphaNumeric`.
    /// If an allocation fails, it ends the process; [`version::Identifier::try_concat`] returns the
    /// unchanged identifier as an error instead.
    ///
    /// ```
    /// use semver_parser::version::Identifier;
    ///
    /// let joined = Identifier::Numeric(7).concat("a");
    /// assert_eq!(joined, Identifier::AlphaNumeric("7a".to_string()));
    /// ```
    #[must_use]
    pub fn concat(self, add_str: &str) -> version::Identifier {
        self.try_concat(add_str).unwrap_or_else(|_| out_of_memory())
    }
}

impl From<parser::Error<'_>> for String {
    fn from(error: parser::Error<'_>) -> String {
        match error {
            parser::Error::OutOfMemory => out_of_memory(),
            error => printed(error),
        }
    }
}

impl Clone for parser::Error<'_> {
    fn clone(&self) -> Self {
        match self {
            Self::UnexpectedEnd => Self::UnexpectedEnd,
            Self::UnexpectedToken(token) => Self::UnexpectedToken(*token),
            Self::Lexer(error) => Self::Lexer(*error),
            Self::MoreInput(tokens) => Self::MoreInput(tokens.clone()),
            Self::EmptyPredicate => Self::EmptyPredicate,
            Self::EmptyRange => Self::EmptyRange,
            Self::OutOfMemory => Self::OutOfMemory,
        }
    }
}

impl Display for lexer::Error {
    /// Writes a sentence, such as `unexpected character '/'`.
    fn fmt(&self, f: &mut Formatter<'_>) -> fmt::Result {
        let lexer::Error::UnexpectedChar(character) = *self;
        UnexpectedCharacter { character }.fmt(f)
    }
}

#[cfg(feature = "std")]
impl std::error::Error for lexer::Error {}

#[cfg(feature = "std")]
impl std::error::Error for parser::Error<'_> {
    /// Returns the error of the lexer, if the error is one.
    fn source(&self) -> Option<&(dyn std::error::Error + 'static)> {
        match self {
            Self::Lexer(error) => Some(error),
            _ => None,
        }
    }
}

impl From<AllocError> for RangeError {
    fn from(_: AllocError) -> RangeError {
        RangeError::OutOfMemory
    }
}
