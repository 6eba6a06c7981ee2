// Made by tools/erase.py from crates/version_sets/src/lib.rt; not edited by hand.
//! Sets of versions in a normal form: membership, the set of a range, the union, intersection and
//! difference of two sets, the lowest version, and equality.

use crate::rattle_std::prelude::*;
mod above_cuts;
mod at_or_above;
mod batch;
mod boundaries;
mod boundary;
mod comparators;
mod conjunction;
mod cut;
mod hashing;
mod interval_membership;
mod lowest;
mod pre_release;
mod pre_release_end;
mod printing;
mod ranges;
mod release;
mod rules;
mod set_difference;
mod set_operations;
mod set_ranges;
mod span_end;
mod spans;
mod successor;
mod sweep;
mod version_set;
mod within;

pub use conjunction::{Conjunction, Ranges};
pub use cut::{Cut, Interval};
pub use release::Release;
pub use rules::PreReleases;
pub use set_difference::Comparison;
pub use set_operations::{Combination, OperationError};
pub use set_ranges::SetRanges;
pub use version_set::VersionSet;
