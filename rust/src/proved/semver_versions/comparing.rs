// Made by tools/erase.py from crates/semver_versions/src/comparing.rt; not edited by hand.
//! Compares the identifiers of a version while they are still a string.

use crate::rattle_std::prelude::*;
use crate::proved::semver_texts::decimals::number_of_digits;
use crate::proved::semver_texts::identifiers::Reading;
use crate::proved::semver_texts::precedence::IdentifierRef;

/// The identifiers of versions: digits that begin with a zero are an alphanumeric identifier.
#[derive(Clone, Copy)]
pub struct InVersions;

impl Reading for InVersions {
    #[inline(always)]
    fn read(part: &[u8]) -> IdentifierRef<'_> {
        let number = match part {
            [] | [b'0', _, ..] => None,
            _ => number_of_digits(part),
        };
        match number {
            Some(number) => IdentifierRef::Numeric(number),
            None => IdentifierRef::AlphaNumeric(part),
        }
    }
}
