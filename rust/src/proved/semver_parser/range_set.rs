// Made by tools/erase.py from crates/semver_parser/src/range_set.rt; not edited by hand.
//! A range string as plain data: [`RangeSet::parse`] reads ranges, one of which a version has to
//! satisfy, in the mode of Cargo or npm, and rewrites `^`, `~`, wildcards and hyphens to
//! comparators.

use crate::rattle_std::prelude::*;
pub use crate::proved::semver_ranges::{RangeError, RangeSet};
