// Made by tools/erase.py from crates/semver_texts/src/grammar.rt; not edited by hand.
//! The grammars in which range and version strings are read.

use crate::rattle_std::prelude::*;
/// A grammar of version and range strings.
#[derive(Clone, Copy, Debug)]
pub enum Grammar {
    /// The grammar of the crate `semver-parser`.
    Crate,
    /// Cargo's grammar. Its versions are those of SemVer 2.0.0.
    Cargo,
    /// npm's grammar, as node-semver 7 reads strings without options.
    Npm,
}

/// How a numeric identifier above 2^64 - 1 is read. Other numeric identifiers are numbers.
#[derive(Clone, Copy, PartialEq, Eq, Hash, Debug)]
pub enum Digits {
    /// As a string, as in the crate `semver-parser`.
    Kept,
    /// As a number, as in SemVer 2.0.0, Cargo and npm.
    AnySize,
}

impl Grammar {
    /// Returns how numeric identifiers are read: `Kept` in the crate's grammar, and `AnySize` in
    /// the others.
    #[must_use]
    #[inline(always)]
    pub fn digits(self) -> Digits {
        match self {
            Grammar::Crate => Digits::Kept,
            Grammar::Cargo | Grammar::Npm => Digits::AnySize,
        }
    }
}
