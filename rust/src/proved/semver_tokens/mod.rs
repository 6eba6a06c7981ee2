// Made by tools/erase.py from crates/semver_tokens/src/lib.rt; not edited by hand.
//! Version strings as tokens: signs, white space, numbers, and other sequences of letters and
//! digits; and a parser with one token of lookahead, which reads numbers, components, identifiers
//! and versions.

use crate::rattle_std::prelude::*;
pub mod lexer;
pub mod parser;
