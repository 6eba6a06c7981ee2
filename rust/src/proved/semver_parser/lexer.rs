// Made by tools/erase.py from crates/semver_parser/src/lexer.rt; not edited by hand.
//! The tokens of a version string: signs, white space, numbers, and other sequences of ASCII
//! letters and digits. [`Lexer`] is an iterator over them. At a character that begins no token it
//! returns an error and ends.

use crate::rattle_std::prelude::*;
pub use crate::proved::semver_tokens::lexer::{Error, Lexer, Token};
