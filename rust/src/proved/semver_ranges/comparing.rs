// Made by tools/erase.py from crates/semver_ranges/src/comparing.rt; not edited by hand.
//! Compares the identifiers of a range, whether they are kept or still a string.

use crate::rattle_std::prelude::*;
use crate::proved::semver_ranges::range::Identifier;
use crate::proved::semver_texts::decimals::number_of_digits;
use crate::proved::semver_texts::identifiers::{AsIdentifier, Reading};
use crate::proved::semver_texts::precedence::IdentifierRef;

impl AsIdentifier for Identifier {
    #[inline(always)]
    fn as_identifier(&self) -> IdentifierRef<'_> {
        match self {
            Identifier::Numeric(number) => IdentifierRef::Numeric(*number),
            Identifier::AlphaNumeric(text) => IdentifierRef::AlphaNumeric(text.as_bytes()),
        }
    }
}

/// The identifiers of ranges: digits that begin with a zero are a number.
#[derive(Clone, Copy)]
pub struct InRanges;

impl Reading for InRanges {
    #[inline(always)]
    fn read(part: &[u8]) -> IdentifierRef<'_> {
        match number_of_digits(part) {
            Some(number) => IdentifierRef::Numeric(number),
            None => IdentifierRef::AlphaNumeric(part),
        }
    }
}
