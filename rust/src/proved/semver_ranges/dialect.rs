// Made by tools/erase.py from crates/semver_ranges/src/dialect.rt; not edited by hand.
//! The dialects of range strings: Cargo's, npm's, and the two modes of the crate `semver-parser`,
//! with their numbers and names.

use crate::rattle_std::prelude::*;
use crate::proved::semver_ranges::range::Compat;
use crate::proved::semver_texts::grammar::Grammar;
use crate::rattle_std::fmt;

/// A dialect of range strings. The page `docs::ranges` compares them.
///
/// ```
/// use semver_parser::{satisfies, Dialect};
///
/// assert!(satisfies("1.9.0", "1.2", Dialect::Cargo)?);
/// assert!(!satisfies("1.9.0", "1.2", Dialect::Npm)?);
/// # Ok::<(), semver_parser::Error>(())
/// ```
#[derive(Clone, Copy, PartialEq, Eq, Hash, Debug)]
#[non_exhaustive]
pub enum Dialect {
    /// Cargo's dialect: `1.2` is `>=1.2.0 <2.0.0`, and commas separate comparators.
    Cargo,
    /// npm's dialect: `>1.2` is `>=1.3.0`, and `v1` is a range.
    Npm,
    /// The dialect of the crate `semver-parser` in its Cargo mode: `1.2` is `>=1.2.0 <1.3.0`.
    CrateCargo,
    /// The dialect of the crate `semver-parser` in its npm mode: `>1.2` is `>1.2.0`.
    CrateNpm,
}

impl Dialect {
    /// Returns the grammar of versions and ranges in this dialect. Both dialects of the crate have
    /// the crate's grammar.
    #[must_use]
    pub(crate) fn grammar(self) -> Grammar {
        match self {
            Dialect::Cargo => Grammar::Cargo,
            Dialect::Npm => Grammar::Npm,
            Dialect::CrateCargo | Dialect::CrateNpm => Grammar::Crate,
        }
    }

    /// Returns the mode of the comparators that a range in this dialect is rewritten to.
    #[must_use]
    #[inline(always)]
    pub(crate) fn mode(self) -> Compat {
        match self {
            Dialect::Cargo | Dialect::CrateCargo => Compat::Cargo,
            Dialect::Npm | Dialect::CrateNpm => Compat::Npm,
        }
    }

    /// Returns the crate's own dialect in a mode.
    #[must_use]
    #[inline(always)]
    pub(crate) fn of_mode(mode: Compat) -> Dialect {
        match mode {
            Compat::Cargo => Dialect::CrateCargo,
            Compat::Npm => Dialect::CrateNpm,
        }
    }

    /// Returns the number of the dialect in C, Python and JavaScript.
    #[must_use]
    pub(crate) fn number(self) -> i32 {
        match self {
            Dialect::Cargo => 0,
            Dialect::Npm => 1,
            Dialect::CrateCargo => 2,
            Dialect::CrateNpm => 3,
        }
    }

    /// Returns the dialect with a number, or `None` if no dialect has it.
    #[must_use]
    pub(crate) fn from_number(number: i32) -> Option<Dialect> {
        match number {
            0 => Some(Dialect::Cargo),
            1 => Some(Dialect::Npm),
            2 => Some(Dialect::CrateCargo),
            3 => Some(Dialect::CrateNpm),
            _ => None,
        }
    }

    /// Returns the name of the dialect for programs.
    ///
    /// ```
    /// use semver_parser::Dialect;
    ///
    /// assert_eq!(Dialect::Npm.name(), "npm");
    /// ```
    #[must_use]
    pub fn name(self) -> &'static str {
        match self {
            Dialect::Cargo => "cargo",
            Dialect::Npm => "npm",
            Dialect::CrateCargo => "crate-cargo",
            Dialect::CrateNpm => "crate-npm",
        }
    }

    /// Returns what separates the comparators of an interval when a range is printed.
    #[must_use]
    pub(crate) fn joint(self) -> &'static str {
        match self {
            Dialect::Cargo => ", ",
            Dialect::Npm | Dialect::CrateCargo | Dialect::CrateNpm => " ",
        }
    }
}

impl fmt::Display for Dialect {
    /// Writes the name.
    fn fmt(&self, f: &mut fmt::Formatter<'_>) -> fmt::Result {
        f.pad(self.name())
    }
}
