// Made by tools/erase.py from crates/semver_parser/src/range.rt; not edited by hand.
//! A range as plain data, and how it is printed: comparators, all of which a version has to
//! satisfy.

use crate::rattle_std::prelude::*;
pub use crate::proved::semver_ranges::{Comparator, Compat, Identifier, Op, Range};
