// Made by tools/erase.py from crates/semver_versions/src/identifiers.rt; not edited by hand.
//! Identifiers, cut from their string at its dots.

use crate::rattle_std::prelude::*;
use crate::proved::semver_versions::comparing::InVersions;
use crate::proved::semver_texts::dotted::{of_parts, text_of_parts};
use crate::proved::semver_texts::identifiers::Reading;
use crate::proved::semver_texts::precedence::IdentifierRef;
use crate::proved::semver_texts::version::Identifier;
use crate::rattle_std::AllocError;

/// Returns the identifier that a `Version` keeps of a string. `Err` means out of memory.
#[inline(always)]
fn identifier(text: &str) -> Result<Identifier, AllocError> {
    if let IdentifierRef::Numeric(number) = InVersions::read(text.as_bytes()) {
        return Ok(Identifier::Numeric(number));
    }
    Ok(Identifier::AlphaNumeric(String::fallible_from_str(text)?))
}

/// Returns the identifiers that a `Version` keeps of the strings between the dots. If there are no
/// bytes, there are no identifiers, and nothing is allocated. `Err` means out of memory.
#[inline(always)]
pub(crate) fn identifiers(bytes: &[u8]) -> Result<Vec<Identifier>, AllocError> {
    if bytes.is_empty() {
        return Ok(Vec::new());
    }
    identifiers_of_text(text_of_parts(bytes))
}

/// Returns the result of `identifiers` for a string.
#[inline(always)]
pub fn identifiers_of_text(text: &str) -> Result<Vec<Identifier>, AllocError> {
    of_parts(text, |part| identifier(part))
}
