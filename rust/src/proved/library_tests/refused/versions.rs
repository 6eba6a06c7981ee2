// Made by tools/erase.py from crates/library_tests/src/refused/versions.rt; not edited by hand.
//! Functions that read a version, and its clone.
#![cfg(feature = "std")]

use crate::rattle_std::prelude::*;
use super::Ending;
use super::fixed::Fixed;
use crate::proved::semver_parser::parser::Error;
use crate::proved::semver_parser::version::Version;
use crate::proved::semver_parser::{lexer, version};
use crate::rattle_std::fmt::Write as _;

/// Strings whose longest prefix of a version has no identifier give their result without a request.
pub fn without_identifiers() -> Ending {
    let release = match version::parse("1.2.3") {
        Ok(version) => prints_as(&version, "1.2.3"),
        Err(_) => false,
    };
    let unfinished = matches!(version::parse("1.2"), Err(Error::UnexpectedEnd));
    Ending::full_if(release && unfinished && is_slash("a/") && is_slash("1.2.3/"))
}

fn is_slash(text: &str) -> bool {
    matches!(
        version::parse(text),
        Err(Error::Lexer(lexer::Error::UnexpectedChar('/')))
    )
}

/// Reads a version with identifiers in its pre-release and in its build metadata.
pub fn with_identifiers() -> Ending {
    read_as("1.2.3-a-b.c+d")
}

/// Reads a version whose identifiers are numbers, which need only the two lists.
pub fn with_numbers() -> Ending {
    read_as("1.2.3-1.2.3+4")
}

/// Reads a string as a version that is printed as the string.
fn read_as(text: &str) -> Ending {
    match version::parse(text) {
        Ok(version) => Ending::full_if(prints_as(&version, text)),
        Err(Error::OutOfMemory) => Ending::Refused,
        Err(_) => Ending::Wrong,
    }
}

/// A string that spells no version, even if it begins with one, gives its result without a request;
/// so does a version without identifiers.
pub fn read_without_identifiers() -> Ending {
    let release = match version::read(" 1.2.3\n") {
        Ok(Some(version)) => prints_as(&version, "1.2.3"),
        _ => false,
    };
    let others = [
        "v1.2.3",
        "1.2",
        "1.2.3 a.b",
        "1.2.3-a.b+c/",
        "1.2.3-a.b+c d",
        "1.2.3-a.b.",
    ];
    let refused = others
        .iter()
        .all(|text| matches!(version::read(text), Ok(None)));
    Ending::full_if(release && refused)
}

/// Reads a version with identifiers, between white space. It makes as many requests as `parse`.
pub fn read_with_identifiers() -> Ending {
    match version::read(" 1.2.3-a-b.c+d\n") {
        Ok(Some(version)) => Ending::full_if(prints_as(&version, "1.2.3-a-b.c+d")),
        Ok(None) => Ending::Wrong,
        Err(_) => Ending::Refused,
    }
}

/// The tokens after a version are allocated at once.
pub fn more_input() -> Ending {
    match version::parse("1.2.3 a.b.c") {
        Err(Error::MoreInput(rest)) => Ending::full_if(rest.len() == 5),
        Err(Error::OutOfMemory) => Ending::Refused,
        _ => Ending::Wrong,
    }
}

/// A clone equals its source, or is out of memory and leaves the source as it was.
pub fn clone() -> Ending {
    let text = "1.2.3-1.alpha1.9+build5.7.3aedf";
    let Ok(version) = version::parse(text) else {
        return Ending::Refused;
    };
    let cloned: Result<_, _> = version.fallible_clone();
    if !prints_as(&version, text) {
        return Ending::Wrong;
    }
    match cloned {
        Ok(clone) => Ending::full_if(clone == version),
        Err(_) => Ending::Refused,
    }
}

/// Returns whether the version is printed as the string.
pub fn prints_as(version: &Version, text: &str) -> bool {
    let mut out = Fixed::new();
    write!(out, "{version}").is_ok() && out.as_bytes() == text.as_bytes()
}
