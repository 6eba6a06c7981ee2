// Made by tools/erase.py from crates/requirements/src/lib.rt; not edited by hand.
//! A range as a string that reads back as the same range.

use crate::rattle_std::prelude::*;
mod intervals;
pub mod requirement;
