// Made by tools/erase.py from crates/repaired_strings/src/lib.rt; not edited by hand.
//! The part of a string that an error is about, and the string with its errors repaired.

use crate::rattle_std::prelude::*;
pub mod errors;
pub mod repairs;
pub mod spans;
