// Made by tools/erase.py from crates/semver_errors/src/conversions.rt; not edited by hand.
//! The errors of other calls, as the error of the Rust crate.

use crate::rattle_std::prelude::*;
use crate::proved::semver_errors::error::{Cause, Error};
use crate::proved::invalid_strings::escaped::write_character;
use crate::proved::range_upgrades::upgrade::UpgradeError;
use crate::proved::repaired_strings::errors::Expected;
use crate::proved::semver_ranges::RangeError;
use crate::proved::semver_ranges::dialect::Dialect;
use crate::proved::semver_tokens::{lexer, parser};
use crate::rattle_std::AllocError;
use crate::rattle_std::fmt;
use crate::proved::tool_ranges::satisfying::SatisfiesError;
use crate::proved::version_sets::OperationError;

impl Error {
    /// Returns the error of an invalid range, or the one for an allocation that failed.
    #[cold]
    pub(crate) fn from_range(error: RangeError, range: &str, dialect: Dialect) -> Error {
        match error {
            RangeError::OutOfMemory => Error::out_of_memory(),
            _ => Error::from_string(Expected::Range, dialect, range),
        }
    }

    /// Returns the error of a version or of a range, whichever is invalid.
    #[cold]
    pub(crate) fn from_satisfies(
        error: SatisfiesError,
        version: &str,
        range: &str,
        dialect: Dialect,
    ) -> Error {
        match error {
            SatisfiesError::InvalidVersion => {
                Error::from_string(Expected::Version, dialect, version)
            }
            SatisfiesError::InvalidRange(error) => Error::from_range(error, range, dialect),
        }
    }

    /// Returns the error of a requirement that can't be raised to a version.
    #[cold]
    pub(crate) fn from_upgrade(
        error: UpgradeError,
        version: &str,
        range: &str,
        dialect: Dialect,
    ) -> Error {
        match error {
            UpgradeError::InvalidVersion => {
                Error::from_string(Expected::Version, dialect, version)
            }
            UpgradeError::InvalidRange(error) => Error::from_range(error, range, dialect),
            UpgradeError::CannotUpgrade => Error::cannot_upgrade(range),
            UpgradeError::OutOfMemory => Error::out_of_memory(),
        }
    }

    /// Returns the error of a range that can't be raised to a version.
    pub(crate) fn cannot_upgrade(range: &str) -> Error {
        match String::fallible_from_str(range) {
            Ok(range) => Error {
                cause: Cause::CannotUpgrade(range),
            },
            Err(_) => Error::out_of_memory(),
        }
    }

    /// Returns the error of an operation on two ranges.
    pub(crate) fn from_operation(error: OperationError) -> Error {
        match error {
            OperationError::OutOfMemory => Error::out_of_memory(),
            _ => Error {
                cause: Cause::DifferentRules,
            },
        }
    }

    /// Returns the error of a version that `version::parse` can't read. It doesn't have the string.
    pub(crate) fn from_parser(error: &parser::Error<'_>) -> Error {
        match error {
            parser::Error::OutOfMemory => Error::out_of_memory(),
            _ => Error::converted(Expected::Version, error.text()),
        }
    }

    /// Returns an error with a sentence that is always the same one.
    fn fixed(expected: Expected, sentence: &'static str) -> Error {
        Error {
            cause: Cause::Fixed(expected, sentence),
        }
    }

    /// Returns an error with the sentence of another one, which doesn't have the string.
    fn converted(expected: Expected, sentence: Result<String, AllocError>) -> Error {
        match sentence {
            Ok(sentence) => Error {
                cause: Cause::Converted(expected, sentence),
            },
            Err(_) => Error::out_of_memory(),
        }
    }
}

impl From<RangeError> for Error {
    /// Converts the error of `RangeSet::try_parse`, which doesn't have the string.
    fn from(error: RangeError) -> Error {
        match error {
            RangeError::NotARange => Error::fixed(Expected::Range, "not a range"),
            RangeError::NumberTooLarge => Error::fixed(Expected::Range, "number too large"),
            RangeError::OutOfMemory => Error::out_of_memory(),
        }
    }
}

impl From<lexer::Error> for Error {
    /// Converts the error of `lexer::Lexer`, which doesn't have the string.
    fn from(error: lexer::Error) -> Error {
        let lexer::Error::UnexpectedChar(character) = error;
        Error {
            cause: Cause::UnexpectedCharacter(character),
        }
    }
}

/// The sentence about a character that begins no token of a version.
#[derive(Clone, Copy)]
pub struct UnexpectedCharacter {
    /// The character.
    pub character: char,
}

impl fmt::Display for UnexpectedCharacter {
    fn fmt(&self, f: &mut fmt::Formatter<'_>) -> fmt::Result {
        write_unexpected(f, self.character)
    }
}

/// Writes the sentence about a character that begins no token of a version.
pub(crate) fn write_unexpected(
    f: &mut fmt::Formatter<'_>,
    character: char,
) -> fmt::Result {
    f.write_str("unexpected character '")?;
    write_character(f, character)?;
    f.write_str("'")
}
