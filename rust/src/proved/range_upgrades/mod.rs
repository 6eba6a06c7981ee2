// Made by tools/erase.py from crates/range_upgrades/src/lib.rt; not edited by hand.
//! Raises a requirement to a newer version, and keeps how it is written.

use crate::rattle_std::prelude::*;
mod alternatives;
mod raised_ranges;
mod raised_versions;
pub mod upgrade;
