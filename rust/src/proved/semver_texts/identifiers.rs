// Made by tools/erase.py from crates/semver_texts/src/identifiers.rt; not edited by hand.
//! Identifiers of pre-releases for comparing: lists of identifiers, and strings that join them by
//! dots.

use crate::rattle_std::prelude::*;
use crate::proved::semver_texts::decimals::number_of_digits;
use crate::proved::semver_texts::dotted::{are_digits, split_at_dot};
use crate::proved::semver_texts::grammar::Digits;
use crate::proved::semver_texts::large_number::LargeNumber;
use crate::proved::semver_texts::precedence::{IdentifierRef, Identifiers};
use crate::proved::semver_texts::version::Identifier;

/// A type of identifiers.
pub trait AsIdentifier {
    /// Returns the identifier for comparing.
    fn as_identifier(&self) -> IdentifierRef<'_>;
}

impl AsIdentifier for Identifier {
    #[inline(always)]
    fn as_identifier(&self) -> IdentifierRef<'_> {
        match self {
            Identifier::Numeric(number) => IdentifierRef::Numeric(*number),
            Identifier::AlphaNumeric(text) => IdentifierRef::AlphaNumeric(text.as_bytes()),
        }
    }
}

impl<'a, T: AsIdentifier> Identifiers<'a> for &'a [T] {
    #[inline(always)]
    fn is_empty(&self) -> bool {
        self.len() == 0
    }

    #[inline(always)]
    fn next(&mut self) -> Option<IdentifierRef<'a>> {
        let [first, others @ ..] = *self else {
            return None;
        };
        *self = others;
        Some(first.as_identifier())
    }
}

/// How the strings between the dots are read.
pub trait Reading: Copy {
    /// Returns the identifier that a string is, for comparing.
    fn read(part: &[u8]) -> IdentifierRef<'_>;
}

/// A string of identifiers joined by dots, some of which may have been taken.
#[derive(Clone, Copy)]
pub struct Joined<'a, R> {
    rest: Option<&'a [u8]>,
    reading: R,
}

impl<'a, R: Reading> Joined<'a, R> {
    /// Returns the identifiers of a string. An empty string has none.
    #[inline(always)]
    pub fn of(text: &'a [u8], reading: R) -> Joined<'a, R> {
        let rest = if text.is_empty() { None } else { Some(text) };
        Joined { rest, reading }
    }
}

impl<'a, R: Reading> Identifiers<'a> for Joined<'a, R> {
    #[inline(always)]
    fn is_empty(&self) -> bool {
        matches!(self.rest, None)
    }

    #[inline(always)]
    fn next(&mut self) -> Option<IdentifierRef<'a>> {
        let (part, after) = split_at_dot(self.rest?);
        self.rest = after;
        Some(R::read(part))
    }
}

/// Identifiers as they are kept, and how the numeric ones are read.
#[derive(Clone, Copy)]
pub struct ByDigits<I> {
    identifiers: I,
    digits: Digits,
}

impl<'a, I: Identifiers<'a>> ByDigits<I> {
    /// Returns these identifiers, read as `digits` says.
    #[inline(always)]
    pub fn of(identifiers: I, digits: Digits) -> ByDigits<I> {
        ByDigits {
            identifiers,
            digits,
        }
    }
}

impl<'a, I: Identifiers<'a>> Identifiers<'a> for ByDigits<I> {
    #[inline(always)]
    fn is_empty(&self) -> bool {
        self.identifiers.is_empty()
    }

    #[inline(always)]
    fn next(&mut self) -> Option<IdentifierRef<'a>> {
        let identifier = self.identifiers.next()?;
        Some(read_by(self.digits, identifier))
    }
}

/// Returns an identifier as it is kept, read as `digits` says. A string that doesn't begin with a
/// digit above 0 is recognized first, for speed.
#[inline(always)]
fn read_by(digits: Digits, identifier: IdentifierRef<'_>) -> IdentifierRef<'_> {
    match identifier {
        IdentifierRef::AlphaNumeric(text @ [b'1'..=b'9', ..]) => match digits {
            Digits::Kept => identifier,
            Digits::AnySize => large_or_text(text),
        },
        _ => identifier,
    }
}

/// Returns the number that a string is, if it is 2^64 or more, or otherwise the string.
#[inline(never)]
fn large_or_text(text: &[u8]) -> IdentifierRef<'_> {
    if are_digits(text) && number_of_digits(text).is_none() {
        IdentifierRef::LargeNumeric(LargeNumber::of(text))
    } else {
        IdentifierRef::AlphaNumeric(text)
    }
}
