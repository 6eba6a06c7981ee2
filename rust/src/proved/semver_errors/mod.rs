// Made by tools/erase.py from crates/semver_errors/src/lib.rt; not edited by hand.
//! The error of the Rust crate: what it says, and what it prints.

use crate::rattle_std::prelude::*;
pub mod conversions;
pub mod error;
pub mod names;
pub mod printing;

pub use error::{Error, Kind};
