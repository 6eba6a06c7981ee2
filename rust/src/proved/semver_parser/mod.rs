// Made by tools/erase.py from crates/semver_parser/src/lib.rt; not edited by hand.
//! A port of the Rust crate `semver-parser` with its names and modules: it reads version and range
//! strings into plain data. [`version::parse`] reads a version, and [`RangeSet::parse`] a range
//! set.
//!
//! | module | content |
//! |---|---|
//! | `lexer`, `parser` | the tokens of a version string, and a parser over them |
//! | `version` | versions, read and printed |
//! | `range`, `range_set` | ranges of comparators, read and printed |
//! | `laws` | laws about the definitions |
//! | `report` | the output of the program |
//!
//! Most modules re-export a crate below. Those crates don't use each other, so they are proved
//! independently; what needs two of them is here.

use crate::rattle_std::prelude::*;
pub mod lexer;
pub mod parser;
mod range;
mod range_set;
pub mod report;
pub mod version;

pub use range::{Comparator, Compat, Identifier, Op, Range};
pub use range_set::{RangeError, RangeSet};
