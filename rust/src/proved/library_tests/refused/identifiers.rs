// Made by tools/erase.py from crates/library_tests/src/refused/identifiers.rt; not edited by hand.
//! `concat`, and the text of an error.
#![cfg(feature = "std")]

use crate::rattle_std::prelude::*;
use super::Ending;
use crate::proved::semver_parser::parser::Error;
use crate::proved::semver_parser::version::Identifier;

/// Appends `x` to `Numeric(5)`. If it is out of memory, it returns the number.
pub fn concat_of_a_number() -> Ending {
    match Identifier::Numeric(5).try_concat("x") {
        Ok(Identifier::AlphaNumeric(text)) => Ending::full_if(text.as_str() == "5x"),
        Err(Identifier::Numeric(number)) => Ending::refused_if(number == 5),
        _ => Ending::Wrong,
    }
}

/// Appends `-b` to `AlphaNumeric("a")`. If it is out of memory, it returns the string.
pub fn concat_of_a_text() -> Ending {
    let Ok(text) = "a".fallible_to_string() else {
        return Ending::Refused;
    };
    match Identifier::AlphaNumeric(text).try_concat("-b") {
        Ok(Identifier::AlphaNumeric(text)) => Ending::full_if(text.as_str() == "a-b"),
        Err(Identifier::AlphaNumeric(text)) => Ending::refused_if(text.as_str() == "a"),
        _ => Ending::Wrong,
    }
}

/// Makes the text of an error.
pub fn error_text() -> Ending {
    match Error::UnexpectedEnd.text() {
        Ok(text) => Ending::full_if(text.as_str() == "expected more input"),
        Err(_) => Ending::Refused,
    }
}
