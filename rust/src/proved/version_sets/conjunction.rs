// Made by tools/erase.py from crates/version_sets/src/conjunction.rt; not edited by hand.
//! The versions that are in each interval of a range, and in some of the ranges.

use crate::rattle_std::prelude::*;
use crate::proved::version_sets::pre_release_end::PreReleaseEnd;
use crate::proved::version_sets::release::Release;
use crate::proved::version_sets::spans::{Bounds, Span};

/// The versions that are in each of several intervals.
#[derive(Clone, Copy)]
pub struct Conjunction<'text> {
    pub(crate) releases: Bounds<Release>,
    pub(crate) pre_releases: Bounds<PreReleaseEnd<'text>>,
}

/// The versions that are in at least one range.
pub struct Ranges<'text> {
    pub(crate) releases: Vec<Span<Release>>,
    pub(crate) pre_releases: Vec<Span<PreReleaseEnd<'text>>>,
}
