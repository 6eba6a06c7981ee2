// Made by tools/erase.py from crates/invalid_strings/src/reasons.rt; not edited by hand.
//! The list of reasons why a string is invalid, with their numbers, names and sentences.

use crate::rattle_std::prelude::*;
use crate::proved::semver_texts::grammar::Grammar;
use crate::rattle_std::fmt;

/// Why a string is an invalid version, or not a range. It is printed as its sentence.
///
/// ```
/// use semver_parser::{Reason, Version};
///
/// let error = "1.02.3".parse::<Version>().unwrap_err();
/// assert_eq!(error.reason(), Some(Reason::LeadingZero));
/// assert_eq!(Reason::LeadingZero.name(), "leading-zero");
/// ```
#[derive(Clone, Copy, PartialEq, Eq, Hash, Debug)]
#[non_exhaustive]
pub enum Reason {
    /// The string is empty, or only white space that the dialect allows before a version.
    Empty,
    /// There are fewer than three numbers: the version `1.2`, the range `1.2-rc`.
    NotThreeNumbers,
    /// A number, or a pre-release identifier of digits only, has a leading zero: `01.2.3`,
    /// `1.2.3-01`.
    LeadingZero,
    /// An identifier is empty: `1.2.3-`, `1.2.3-a..b`. In the crate's dialect this includes the
    /// part before or after a hyphen: `1.2.3--a`.
    EmptyIdentifier,
    /// This character isn't allowed there in a version, or in a range: the version `1.x`, the range
    /// `1.2.3.4`.
    UnexpectedCharacter,
    /// A number is above 2^64 - 1.
    TooLarge,
    /// Every version with this beginning is longer than npm's 256 characters, or has a build
    /// identifier longer than 250.
    TooLong,
    /// A version and white space are followed by something else: `1.2.3 x`. In Cargo's dialect this
    /// includes the white space itself, and in the crate's a vertical tab or a form feed.
    TextAfter,
    /// The bytes aren't UTF-8. A function that takes a `&str` never returns this.
    NotUtf8,
    /// A number is expected: `1..3`, `>=`.
    NumberExpected,
    /// The range needs more at its end.
    UnexpectedEnd,
    /// Cargo separates comparators by commas.
    CargoCommas,
    /// Cargo allows `*` without a number before it only as the whole requirement.
    CargoWildcard,
    /// Cargo doesn't allow `||`; npm does.
    CargoBars,
    /// Cargo doesn't allow a leading `v`, before a version or in a range; npm does.
    CargoV,
    /// Cargo doesn't have hyphen ranges; npm does.
    CargoHyphen,
    /// npm separates comparators by spaces; Cargo separates them by commas.
    NpmComma,
    /// The crate doesn't allow commas; Cargo does.
    CrateComma,
    /// The crate doesn't allow a leading `v`, before a version or in a range; npm does.
    CrateV,
    /// In npm's dialect, a number is above 2^53 - 1.
    NpmTooLarge,
    /// Cargo allows at most 32 comparators.
    TooManyComparators,
    /// The bound above a number of a range is above 2^64 - 1: `>1.18446744073709551615`.
    BoundTooLarge,
    /// In npm's dialect, the bound above a number of a range is above 2^53 - 1.
    NpmBoundTooLarge,
}

impl Reason {
    /// Returns the reason for a number that is above the limit of a dialect.
    #[must_use]
    pub(crate) fn too_large_in(grammar: Grammar) -> Reason {
        match grammar {
            Grammar::Npm => Reason::NpmTooLarge,
            Grammar::Crate | Grammar::Cargo => Reason::TooLarge,
        }
    }

    /// Returns the reason for a number of a range that can't be raised, since the bound above it
    /// would be above the limit of a dialect.
    #[must_use]
    pub(crate) fn bound_too_large_in(grammar: Grammar) -> Reason {
        match grammar {
            Grammar::Npm => Reason::NpmBoundTooLarge,
            Grammar::Crate | Grammar::Cargo => Reason::BoundTooLarge,
        }
    }

    /// Returns the number of the reason in C, Python and JavaScript.
    #[must_use]
    pub(crate) fn number(self) -> i32 {
        self.row().0
    }

    /// Returns the reason with a number, or `None` if no reason has it.
    #[must_use]
    pub(crate) fn from_number(number: i32) -> Option<Reason> {
        match number {
            1 => Some(Reason::Empty),
            2 => Some(Reason::NotThreeNumbers),
            3 => Some(Reason::LeadingZero),
            4 => Some(Reason::EmptyIdentifier),
            5 => Some(Reason::UnexpectedCharacter),
            6 => Some(Reason::TooLarge),
            7 => Some(Reason::TooLong),
            8 => Some(Reason::TextAfter),
            9 => Some(Reason::NotUtf8),
            10 => Some(Reason::NumberExpected),
            11 => Some(Reason::UnexpectedEnd),
            12 => Some(Reason::CargoCommas),
            13 => Some(Reason::CargoWildcard),
            14 => Some(Reason::CargoBars),
            15 => Some(Reason::CargoV),
            16 => Some(Reason::CargoHyphen),
            17 => Some(Reason::NpmComma),
            18 => Some(Reason::CrateComma),
            19 => Some(Reason::CrateV),
            20 => Some(Reason::NpmTooLarge),
            21 => Some(Reason::TooManyComparators),
            22 => Some(Reason::BoundTooLarge),
            23 => Some(Reason::NpmBoundTooLarge),
            _ => None,
        }
    }

    /// Returns the name of the reason for programs, in lower case with hyphens.
    ///
    /// ```
    /// use semver_parser::Reason;
    ///
    /// assert_eq!(Reason::LeadingZero.name(), "leading-zero");
    /// ```
    #[must_use]
    pub fn name(self) -> &'static str {
        self.row().1
    }

    /// Returns the sentence of the reason for people, without a full stop.
    ///
    /// ```
    /// use semver_parser::Reason;
    ///
    /// assert_eq!(Reason::CargoBars.sentence(), "Cargo doesn't accept ||; npm does");
    /// ```
    #[must_use]
    pub fn sentence(self) -> &'static str {
        self.row().2
    }

    /// Returns the number, name and sentence of the reason.
    fn row(self) -> (i32, &'static str, &'static str) {
        match self {
            Reason::Empty => (1, "empty", "the string is empty"),
            Reason::NotThreeNumbers => (
                2,
                "not-three-numbers",
                "there are fewer than three numbers",
            ),
            Reason::LeadingZero => (
                3,
                "leading-zero",
                "numbers and identifiers of digits may not have a leading zero",
            ),
            Reason::EmptyIdentifier => (4, "empty-identifier", "an identifier is empty"),
            Reason::UnexpectedCharacter => (5, "unexpected-character", "unexpected character"),
            Reason::TooLarge => (6, "too-large", "numbers are at most 2^64 - 1"),
            Reason::TooLong => (
                7,
                "too-long",
                "npm takes no version above 256 characters, and no build identifier above 250",
            ),
            Reason::TextAfter => (8, "text-after", "text follows the version"),
            Reason::NotUtf8 => (9, "not-utf8", "the string isn't UTF-8"),
            Reason::NumberExpected => (10, "number-expected", "a number is expected"),
            Reason::UnexpectedEnd => (11, "unexpected-end", "something is missing"),
            Reason::CargoCommas => (12, "cargo-commas", "Cargo separates comparators by commas"),
            Reason::CargoWildcard => (
                13,
                "cargo-wildcard",
                "Cargo takes * without numbers before it only alone",
            ),
            Reason::CargoBars => (14, "cargo-bars", "Cargo doesn't accept ||; npm does"),
            Reason::CargoV => (15, "cargo-v", "Cargo doesn't accept a leading v; npm does"),
            Reason::CargoHyphen => (
                16,
                "cargo-hyphen",
                "Cargo doesn't accept hyphen ranges; npm does",
            ),
            Reason::NpmComma => (
                17,
                "npm-comma",
                "npm separates comparators by spaces; Cargo takes commas",
            ),
            Reason::CrateComma => (
                18,
                "crate-comma",
                "the crate doesn't accept commas; Cargo does",
            ),
            Reason::CrateV => (
                19,
                "crate-v",
                "the crate doesn't accept a leading v; npm does",
            ),
            Reason::NpmTooLarge => (20, "npm-too-large", "npm's numbers are at most 2^53 - 1"),
            Reason::TooManyComparators => (
                21,
                "too-many-comparators",
                "Cargo takes at most 32 comparators",
            ),
            Reason::BoundTooLarge => (
                22,
                "bound-too-large",
                "the bound above this number is above 2^64 - 1",
            ),
            Reason::NpmBoundTooLarge => (
                23,
                "npm-bound-too-large",
                "the bound above this number is above npm's limit of 2^53 - 1",
            ),
        }
    }
}

impl fmt::Display for Reason {
    fn fmt(&self, f: &mut fmt::Formatter<'_>) -> fmt::Result {
        f.write_str(self.sentence())
    }
}
