// Made by tools/erase.py from crates/version_sets/src/pre_release_end.rt; not edited by hand.
//! Ends of spans of pre-releases.

use crate::rattle_std::prelude::*;
use crate::proved::version_sets::release::Release;
use crate::proved::semver_texts::grammar::Digits;

/// The beginning or the end of a span of pre-releases: the version with these numbers and
/// identifiers. If `successor`, the number 0 follows the identifiers. Without identifiers it is the
/// lowest pre-release of the numbers, whose only identifier is 0.
#[derive(Clone, Copy)]
pub(crate) struct PreReleaseEnd<'text> {
    pub(crate) numbers: Release,
    pub(crate) pre: &'text [u8],
    pub(crate) successor: bool,
    pub(crate) digits: Digits,
}
