// Made by tools/erase.py from crates/semver_versions/src/lib.rt; not edited by hand.
//! Reads version strings in three dialects, either as a borrowed version, without allocating, or as
//! a `Version`.

use crate::rattle_std::prelude::*;
pub mod comparing;
pub mod identifiers;
pub mod owned;
pub mod placed;
pub mod read_version;
mod reader;
pub mod version;
mod version_order;
mod version_ref;
