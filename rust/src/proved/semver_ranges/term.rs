// Made by tools/erase.py from crates/semver_ranges/src/term.rt; not edited by hand.
//! A term of a range string as it is written, and where it is.

use crate::rattle_std::prelude::*;
use crate::proved::semver_ranges::grammar::Simple;
use crate::proved::semver_ranges::operator::Operator;
use crate::proved::semver_ranges::partial::Components;
use crate::proved::semver_texts::grammar::Grammar;

/// A version of a term as it is written.
#[derive(Clone, Copy)]
pub struct RawVersion<'text> {
    /// The string from its first byte on, which is `v` if it has one.
    pub from: &'text [u8],
    /// What follows it.
    pub after: &'text [u8],
    /// Its components.
    pub components: Components<'text>,
}

/// A term as it is written.
#[derive(Clone, Copy)]
pub struct RawTerm<'text> {
    /// The string from its first byte on.
    pub from: &'text [u8],
    /// Its operator.
    pub operator: Operator,
    /// Its version; in a hyphen range, the one before the hyphen.
    pub version: RawVersion<'text>,
    /// The version after the hyphen of a hyphen range.
    pub upper: Option<RawVersion<'text>>,
}

impl<'text> RawTerm<'text> {
    /// Returns the operator that a grammar reads, and the numbers of its version.
    #[inline(always)]
    pub(crate) fn simple(&self, grammar: Grammar) -> Simple<'text> {
        Simple::of(self.operator, &self.version.components, grammar)
    }
}
