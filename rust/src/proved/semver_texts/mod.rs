// Made by tools/erase.py from crates/semver_texts/src/lib.rt; not edited by hand.
//! What version and range strings have in common: versions as plain data and their precedence,
//! bytes, numbers, identifiers joined by dots, white space, npm's limits, dialects, and how bytes
//! and lists of printed values are written. The directory `specs/` has strings as their bytes, the
//! grammar of versions, and how they are printed.

use crate::rattle_std::prelude::*;
pub mod bytes;
pub mod decimals;
pub mod dotted;
pub mod grammar;
pub mod identifiers;
pub mod large_number;
pub mod npm_limits;
pub mod precedence;
pub mod printing;
pub mod version;
pub mod white_space;
pub mod writing;
