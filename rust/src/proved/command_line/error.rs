// Made by tools/erase.py from crates/command_line/src/error.rt; not edited by hand.
//! Errors in the arguments of a program.
#![cfg(feature = "std")]

use crate::rattle_std::prelude::*;
use crate::proved::invalid_strings::escaped::Escaped;
use crate::rattle_std::AllocError;
use crate::rattle_std::fmt::{self, Display, Formatter};
use crate::rattle_std::io::{self, ErrorKind};

/// An argument, which is printed in quotes, with [`Escaped`] characters.
#[derive(Debug)]
pub struct Quoted {
    /// The argument.
    pub text: String,
}

impl Display for Quoted {
    fn fmt(&self, f: &mut Formatter<'_>) -> fmt::Result {
        write!(
            f,
            "\"{}\"",
            Escaped {
                text: self.text.as_str()
            }
        )
    }
}

/// An error in the arguments of a program. Options are printed as they are written.
#[derive(Debug)]
pub enum ArgumentError {
    /// An argument isn't a string.
    NotUtf8,
    /// An allocation failed.
    OutOfMemory,
    /// This option is unknown.
    UnknownOption(Quoted),
    /// This option has a value after `=`, and doesn't accept one.
    NeedlessValue(Quoted),
    /// Nothing follows `--dialect`, or `--as`.
    NoDialect,
    /// The string after `--dialect` isn't the name of a dialect.
    UnknownDialect(Quoted),
    /// Nothing follows `--prefix`.
    NoPrefix,
    /// This option, or another one with the same meaning, was given before.
    GivenTwice(&'static str),
    /// The first option contradicts the second, which was given before.
    Contradiction(&'static str, &'static str),
    /// Nothing follows `--only`, or an unknown word.
    NoKind,
    /// Nothing follows `--fail-on`, or an unknown word.
    NoChange,
    /// `--fail-on` is given with one range.
    NoComparison,
    /// Nothing follows `--upgrade`.
    NoVersion,
    /// `--upgrade` is given with two ranges.
    TwoToUpgrade,
    /// `--reverse` is given without `--sort`.
    NoOrder,
    /// There is no range. These are the arguments that are needed.
    NoRange(&'static str),
    /// There are more than two ranges.
    MoreThanTwoRanges,
}

impl crate::rattle_std::fmt::Display for ArgumentError {
    fn fmt(&self, f: &mut crate::rattle_std::fmt::Formatter<'_>) -> crate::rattle_std::fmt::Result {
        match self {
            ArgumentError::NotUtf8 => write!(f, "an argument is not UTF-8"),
            ArgumentError::OutOfMemory => write!(f, "out of memory"),
            ArgumentError::UnknownOption(_0) => write!(f, "unknown option: {_0}"),
            ArgumentError::NeedlessValue(_0) => write!(f, "the option does not accept a value: {_0}"),
            ArgumentError::NoDialect => write!(f, "--dialect needs a name"),
            ArgumentError::UnknownDialect(_0) => write!(f, "unknown dialect: {_0}, which is none of cargo, npm, crate-cargo and crate-npm"),
            ArgumentError::NoPrefix => write!(f, "--prefix needs a value"),
            ArgumentError::GivenTwice(_0) => write!(f, "{_0} is given twice"),
            ArgumentError::Contradiction(_0, _1) => write!(f, "{_0} contradicts {_1}"),
            ArgumentError::NoKind => write!(f, "--only needs releases or pre-releases"),
            ArgumentError::NoChange => write!(f, "--fail-on needs lost, gained or any"),
            ArgumentError::NoComparison => write!(f, "--fail-on needs two ranges"),
            ArgumentError::NoVersion => write!(f, "--upgrade needs a version"),
            ArgumentError::TwoToUpgrade => write!(f, "--upgrade needs only one range"),
            ArgumentError::NoOrder => write!(f, "--reverse needs --sort"),
            ArgumentError::NoRange(_0) => write!(f, "no range: the arguments are {_0}"),
            ArgumentError::MoreThanTwoRanges => write!(f, "more than two ranges"),
        }
    }
}

#[cfg(feature = "std")]
impl crate::rattle_std::Error for ArgumentError {}

impl From<AllocError> for ArgumentError {
    fn from(_error: AllocError) -> ArgumentError {
        ArgumentError::OutOfMemory
    }
}

impl From<io::Error> for ArgumentError {
    /// Returns the error of arguments that can't be read.
    fn from(error: io::Error) -> ArgumentError {
        match error.kind() {
            ErrorKind::OutOfMemory => ArgumentError::OutOfMemory,
            _ => ArgumentError::NotUtf8,
        }
    }
}
