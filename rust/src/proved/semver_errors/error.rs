// Made by tools/erase.py from crates/semver_errors/src/error.rt; not edited by hand.
//! The error of the Rust crate.

use crate::rattle_std::prelude::*;
use crate::proved::invalid_strings::reasons::Reason;
use crate::proved::range_terms::term::Span;
use crate::proved::repaired_strings::errors::{Expected, first_error};
use crate::proved::repaired_strings::repairs::repaired;
use crate::proved::repaired_strings::spans::span_at;
use crate::proved::semver_ranges::dialect::Dialect;
use crate::rattle_std::AllocError;

/// The kind of an [`Error`]: what a program can do about it. [`Error::reason`] says why.
///
/// ```
/// use semver_parser::{satisfies, Dialect, ErrorKind};
///
/// let kind = |version, range| satisfies(version, range, Dialect::Cargo).unwrap_err().kind();
/// assert_eq!(kind("1.2", "^1"), ErrorKind::InvalidVersion);
/// assert_eq!(kind("1.2.0", "1 || 2"), ErrorKind::InvalidRange);
/// ```
#[derive(Clone, Copy, Debug, PartialEq, Eq, Hash)]
#[non_exhaustive]
pub enum Kind {
    /// A string is an invalid version in the dialect.
    InvalidVersion,
    /// A string isn't a range in the dialect, or one of its numbers is too large.
    InvalidRange,
    /// A range can't be written so that it contains a newer version (`upgrade`).
    CannotUpgrade,
    /// Two ranges were read by different rules, so they can't be combined or compared.
    DifferentRules,
    /// A string isn't the name of a dialect, or of a rule for pre-releases.
    UnknownName,
    /// An allocation failed.
    OutOfMemory,
}

/// The error of this crate. It has the invalid string, says where and why it is invalid, and may
/// know what was meant. Every other error of the crate converts into it by `?`.
///
/// `{}` prints one line, and `{:#}` also prints the string with carets below its span:
///
/// ```
/// use semver_parser::{Dialect, ErrorKind, Reason, Span, VersionRange};
///
/// let error = VersionRange::parse("1 || 2", Dialect::Cargo).unwrap_err();
/// assert_eq!(
///     error.to_string(),
///     "invalid range \"1 || 2\" at offset 2: Cargo doesn't accept ||; npm does"
/// );
/// assert_eq!(
///     format!("{error:#}"),
///     "invalid range: Cargo doesn't accept ||; npm does\n    1 || 2\n      ^^"
/// );
/// assert_eq!(error.kind(), ErrorKind::InvalidRange);
/// assert_eq!((error.offset(), error.reason()), (Some(2), Some(Reason::CargoBars)));
/// assert_eq!(error.span(), Some(Span { start: 2, end: 4 }));
///
/// let error = VersionRange::parse("=>1.2", Dialect::Npm).unwrap_err();
/// assert_eq!(error.suggestion().as_deref(), Some(">=1.2"));
/// ```
#[derive(Clone, Debug)]
#[derive(PartialEq, Eq)]
pub struct Error {
    pub(crate) cause: Cause,
}

impl crate::rattle_std::FallibleClone for Error {
    fn fallible_clone(&self) -> Result<Self, crate::rattle_std::AllocError> {
        match self {
            Error { cause } => Ok(Error { cause: cause.fallible_clone()? }),
        }
    }
}

/// What an error is about.
#[derive(Clone, Debug, PartialEq, Eq)]
pub(crate) enum Cause {
    /// A string is an invalid version or an invalid range.
    Invalid {
        expected: Expected,
        dialect: Dialect,
        string: String,
        offset: usize,
        reason: Reason,
        span: Span,
    },
    /// This range can't be raised to a version.
    CannotUpgrade(String),
    /// This name is unknown. The other string says which ones are known.
    UnknownName(String, &'static str),
    /// Two ranges were read by different rules.
    DifferentRules,
    /// Another error, which doesn't have the string, says so in a sentence.
    Converted(Expected, String),
    /// The same, in a sentence that is always the same one.
    Fixed(Expected, &'static str),
    /// This character begins no token of a version.
    UnexpectedCharacter(char),
    /// An allocation failed.
    OutOfMemory,
}

impl crate::rattle_std::FallibleClone for Cause {
    fn fallible_clone(&self) -> Result<Self, crate::rattle_std::AllocError> {
        match self {
            Cause::Invalid { expected, dialect, string, offset, reason, span } => Ok(Cause::Invalid { expected: *expected, dialect: *dialect, string: string.fallible_clone()?, offset: *offset, reason: *reason, span: *span }),
            Cause::CannotUpgrade(_0) => Ok(Cause::CannotUpgrade(_0.fallible_clone()?)),
            Cause::UnknownName(_0, _1) => Ok(Cause::UnknownName(_0.fallible_clone()?, *_1)),
            Cause::DifferentRules => Ok(Cause::DifferentRules),
            Cause::Converted(_0, _1) => Ok(Cause::Converted(*_0, _1.fallible_clone()?)),
            Cause::Fixed(_0, _1) => Ok(Cause::Fixed(*_0, *_1)),
            Cause::UnexpectedCharacter(_0) => Ok(Cause::UnexpectedCharacter(*_0)),
            Cause::OutOfMemory => Ok(Cause::OutOfMemory),
        }
    }
}

impl Error {
    /// Returns the kind of the error.
    ///
    /// ```
    /// use semver_parser::{Dialect, ErrorKind};
    ///
    /// let error = "yarn".parse::<Dialect>().unwrap_err();
    /// assert_eq!(error.kind(), ErrorKind::UnknownName);
    /// ```
    #[must_use]
    pub fn kind(&self) -> Kind {
        match self.cause {
            Cause::Invalid { expected, .. } => invalid_kind(expected),
            Cause::CannotUpgrade(_) => Kind::CannotUpgrade,
            Cause::UnknownName(_, _) => Kind::UnknownName,
            Cause::DifferentRules => Kind::DifferentRules,
            Cause::Converted(expected, _) => invalid_kind(expected),
            Cause::Fixed(expected, _) => invalid_kind(expected),
            Cause::UnexpectedCharacter(_) => Kind::InvalidVersion,
            Cause::OutOfMemory => Kind::OutOfMemory,
        }
    }

    /// Returns the invalid string. It is empty if the error isn't about a string, or was converted
    /// from one that doesn't have the string.
    ///
    /// ```
    /// use semver_parser::Version;
    ///
    /// assert_eq!("1.2".parse::<Version>().unwrap_err().string(), "1.2");
    /// ```
    #[must_use]
    pub fn string(&self) -> &str {
        match &self.cause {
            Cause::Invalid { string, .. } => string.as_str(),
            Cause::CannotUpgrade(range) => range.as_str(),
            Cause::UnknownName(name, _) => name.as_str(),
            _ => "",
        }
    }

    /// Returns the byte offset of the first character that isn't allowed there, or the length of
    /// the string if something is missing at its end. If a number is too large, or a bound that is
    /// raised by one, it is the offset of that number.
    ///
    /// ```
    /// use semver_parser::Version;
    ///
    /// assert_eq!("1.2.03".parse::<Version>().unwrap_err().offset(), Some(5));
    /// assert_eq!("1.2".parse::<Version>().unwrap_err().offset(), Some(3));
    /// ```
    #[must_use]
    pub fn offset(&self) -> Option<usize> {
        match self.cause {
            Cause::Invalid { offset, .. } => Some(offset),
            _ => None,
        }
    }

    /// Returns the part of the string to underline: the characters of the same kind around the
    /// offset, such as a whole number or a whole operator. For a leading zero it is the number that
    /// begins with it. It is empty only at the end of the string, if something is missing there.
    ///
    /// ```
    /// use semver_parser::{Dialect, Span, Version};
    ///
    /// let span = |text| Version::parse(text, Dialect::Cargo).unwrap_err().span();
    /// assert_eq!(span("1.2.03"), Some(Span { start: 4, end: 6 }));
    /// assert_eq!(span("1.2"), Some(Span { start: 3, end: 3 }));
    /// ```
    #[must_use]
    pub fn span(&self) -> Option<Span> {
        match self.cause {
            Cause::Invalid { span, .. } => Some(span),
            _ => None,
        }
    }

    /// Returns why the string is invalid.
    ///
    /// ```
    /// use semver_parser::{Reason, Version};
    ///
    /// let error = "1.2.03".parse::<Version>().unwrap_err();
    /// assert_eq!(error.reason(), Some(Reason::LeadingZero));
    /// ```
    #[must_use]
    pub fn reason(&self) -> Option<Reason> {
        match self.cause {
            Cause::Invalid { reason, .. } => Some(reason),
            _ => None,
        }
    }

    /// Returns a string that is valid in the dialect, and that may have been meant, or `None` if
    /// none is known. It repairs one error after the other, and changes nothing but the spans of
    /// these errors. `Err` means out of memory.
    pub(crate) fn try_suggestion(&self) -> Result<Option<String>, AllocError> {
        match &self.cause {
            Cause::Invalid {
                expected,
                dialect,
                string,
                ..
            } => repaired(*expected, *dialect, string.as_str()),
            _ => Ok(None),
        }
    }

    /// Returns the error of an invalid string: where and why it is invalid.
    #[cold]
    pub(crate) fn from_string(expected: Expected, dialect: Dialect, text: &str) -> Error {
        match invalid(expected, dialect, text) {
            Ok(error) => error,
            Err(_) => Error::out_of_memory(),
        }
    }

    /// Returns the error for an allocation that failed.
    pub(crate) fn out_of_memory() -> Error {
        Error {
            cause: Cause::OutOfMemory,
        }
    }

    /// Returns the error of a name that is unknown. The other string says which ones are known.
    pub(crate) fn unknown_name(name: &str, known: &'static str) -> Error {
        match String::fallible_from_str(name) {
            Ok(name) => Error {
                cause: Cause::UnknownName(name, known),
            },
            Err(_) => Error::out_of_memory(),
        }
    }
}

/// Returns the kind of the error of an invalid string.
pub(crate) fn invalid_kind(expected: Expected) -> Kind {
    match expected {
        Expected::Version => Kind::InvalidVersion,
        Expected::Range => Kind::InvalidRange,
    }
}

/// Returns the error of an invalid string.
fn invalid(
    expected: Expected,
    dialect: Dialect,
    text: &str,
) -> Result<Error, AllocError> {
    let string = String::fallible_from_str(text)?;
    let Some(error) = first_error(expected, dialect, text)? else {
        unreachable!();
    };
    let span = span_at(text, error.offset, error.reason);
    Ok(Error {
        cause: Cause::Invalid {
            expected,
            dialect,
            string,
            offset: error.offset,
            reason: error.reason,
            span,
        },
    })
}
