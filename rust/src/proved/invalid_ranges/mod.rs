// Made by tools/erase.py from crates/invalid_ranges/src/lib.rt; not edited by hand.
//! Where and why a string is not a range: the longest prefix with which a range of a dialect
//! begins, the reason of the error, and the number that is too large.

use crate::rattle_std::prelude::*;
mod limit;
mod offset;
mod reasons;
pub mod refusals;
