// Made by tools/erase.py from crates/semver_versions/src/placed.rt; not edited by hand.
//! Versions without the strings that they were read from.

use crate::rattle_std::prelude::*;
use crate::proved::semver_versions::version_ref::VersionRef;
use crate::proved::semver_texts::grammar::Digits;

/// A version that was read from a string, without the string: its numbers, and where the
/// pre-release is in the string. It can be kept while the string is moved.
#[derive(Clone, Copy, Debug)]
pub struct PlacedVersion {
    pub(crate) major: u64,
    pub(crate) minor: u64,
    pub(crate) patch: u64,
    pub(crate) before_pre: usize,
    pub(crate) pre_len: usize,
    pub(crate) digits: Digits,
}

impl<'t> VersionRef<'t> {
    /// Returns the version without its string and without build metadata.
    #[must_use]
    #[inline(always)]
    pub(crate) fn placed(&self) -> PlacedVersion {
        PlacedVersion {
            major: self.major,
            minor: self.minor,
            patch: self.patch,
            before_pre: self.before_pre,
            pre_len: self.pre.len(),
            digits: self.digits,
        }
    }
}

impl PlacedVersion {
    /// Returns the version without build metadata, in the string that it was read from.
    #[must_use]
    #[inline(always)]
    pub(crate) fn within<'t>(&self, string: &'t [u8]) -> VersionRef<'t> {
        let rest = string.get(self.before_pre..).unwrap_or_default();
        VersionRef {
            major: self.major,
            minor: self.minor,
            patch: self.patch,
            pre: rest.get(..self.pre_len).unwrap_or_default(),
            build: &[],
            before_pre: self.before_pre,
            before_build: 0,
            digits: self.digits,
        }
    }
}
