// Made by tools/erase.py from crates/tool_ranges/src/lib.rt; not edited by hand.
//! What a range means in each dialect: which versions satisfy it, their set, and its comparators.
//! The dialects are those of Cargo and npm themselves, and the two modes of the crate
//! `semver-parser`, which differ from both.

use crate::rattle_std::prelude::*;
pub mod at_or_above;
pub mod cargo;
pub mod highest;
mod intervals;
pub mod large_numbers;
mod matching;
pub mod meaning;
pub mod npm;
mod range_operations;
mod reading;
pub mod rewriting;
pub mod satisfying;
mod sets;
pub mod version_range;
pub mod widening;
