// Made by tools/erase.py from crates/semver_parser/src/parser.rt; not edited by hand.
//! A parser over the tokens of a string, with one token of lookahead. Its methods read a number, a
//! component, an identifier or a whole version, and [`Error`] says what was found instead.

use crate::rattle_std::prelude::*;
pub use crate::proved::semver_tokens::parser::{Error, Parser};
