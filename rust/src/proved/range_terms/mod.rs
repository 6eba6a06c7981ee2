// Made by tools/erase.py from crates/range_terms/src/lib.rt; not edited by hand.
//! The terms of a range string as plain data: what is written, and at which offsets.

use crate::rattle_std::prelude::*;
pub mod term;
pub mod terms;
