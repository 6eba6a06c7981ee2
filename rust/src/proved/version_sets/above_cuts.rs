// Made by tools/erase.py from crates/version_sets/src/above_cuts.rt; not edited by hand.
//! The lowest release and the lowest pre-release above a cut.

use crate::rattle_std::prelude::*;
use crate::proved::version_sets::cut::Cut;
use crate::proved::version_sets::pre_release_end::PreReleaseEnd;
use crate::proved::version_sets::release::{Release, next_numbers};
use crate::proved::version_sets::span_end::SpanEnd;
use crate::proved::version_sets::successor::Successor;
use crate::proved::semver_ranges::comparing::InRanges;
use crate::proved::semver_ranges::partial::Place;
use crate::proved::semver_ranges::table::Side;
use crate::proved::semver_texts::decimals::number_of_digits;
use crate::proved::semver_texts::dotted::{of_parts, text_of_parts};
use crate::proved::semver_texts::grammar::Digits;
use crate::proved::semver_texts::identifiers::{ByDigits, Joined};
use crate::proved::semver_texts::precedence::{Identifiers, compare_pre_releases};
use crate::proved::semver_versions::read_version::ReadVersion;
use crate::proved::semver_versions::version::{Identifier, Version};
use crate::rattle_std::AllocError;
use crate::rattle_std::cmp::Ordering;

/// Returns the lowest release above a cut, if there is one. If the cut is at a pre-release, that
/// release has the same numbers.
pub(crate) fn first_release(cut: &Cut<'_>) -> Option<Release> {
    match cut.side {
        Side::Below | Side::At => Some(cut.numbers),
        Side::Past if !cut.pre.is_empty() => Some(cut.numbers),
        Side::Past => next_numbers(cut.numbers),
        Side::Above(place) => next_numbers(highest_numbers(cut.numbers, place)),
    }
}

/// Returns the highest numbers that are equal to the given ones up to a place.
fn highest_numbers(numbers: Release, place: Place) -> Release {
    let (major, minor, patch) = (numbers.major, numbers.minor, numbers.patch);
    match place {
        Place::Major => Release {
            major,
            minor: u64::MAX,
            patch: u64::MAX,
        },
        Place::Minor => Release {
            major,
            minor,
            patch: u64::MAX,
        },
        Place::Patch => Release {
            major,
            minor,
            patch,
        },
    }
}

impl<'text> PreReleaseEnd<'text> {
    /// Returns the beginning of the pre-releases with some numbers.
    pub(crate) fn lowest(numbers: Release) -> PreReleaseEnd<'text> {
        PreReleaseEnd {
            numbers,
            pre: &[],
            successor: true,
            digits: Digits::Kept,
        }
    }

    /// Returns the beginning of the pre-releases of the next numbers, if there are any.
    pub(crate) fn above_numbers(numbers: Release) -> Option<PreReleaseEnd<'text>> {
        Some(PreReleaseEnd::lowest(next_numbers(numbers)?))
    }

    /// Returns the beginning of the pre-releases above a cut, if there are any. Above a release
    /// they begin with the next numbers, since no pre-release with the same numbers is above it.
    /// Directly above a pre-release comes the one that has the number 0 as one more identifier.
    #[inline(always)]
    pub(crate) fn first(cut: &Cut<'text>, digits: Digits) -> Option<PreReleaseEnd<'text>> {
        match cut.side {
            Side::Below => Some(PreReleaseEnd::lowest(cut.numbers)),
            Side::At if !cut.pre.is_empty() => Some(PreReleaseEnd::beside(cut, false, digits)),
            Side::Past if !cut.pre.is_empty() => Some(PreReleaseEnd::beside(cut, true, digits)),
            Side::At | Side::Past => PreReleaseEnd::above_numbers(cut.numbers),
            Side::Above(place) => PreReleaseEnd::above_numbers(highest_numbers(cut.numbers, place)),
        }
    }

    /// Returns the version of a cut, or the next pre-release above it.
    fn beside(cut: &Cut<'text>, successor: bool, digits: Digits) -> PreReleaseEnd<'text> {
        PreReleaseEnd {
            numbers: cut.numbers,
            pre: cut.pre,
            successor,
            digits,
        }
    }

    /// Returns the identifiers as they are compared.
    pub(crate) fn compared_pre(&self) -> ByDigits<Successor<Joined<'text, InRanges>>> {
        let pre = Successor {
            identifiers: Joined::of(self.pre, InRanges),
            zero: self.successor || self.pre.is_empty(),
        };
        ByDigits::of(pre, self.digits)
    }
}

impl<'text> SpanEnd for PreReleaseEnd<'text> {
    type Boundary = ReadVersion;

    fn compare(&self, other: &PreReleaseEnd<'text>) -> Ordering {
        let turns = self.numbers.compare(&other.numbers);
        if !turns.is_eq() {
            return turns;
        }
        compare_pre_releases(self.compared_pre(), other.compared_pre())
    }

    fn boundary(&self) -> Result<ReadVersion, AllocError> {
        let version = Version {
            major: self.numbers.major,
            minor: self.numbers.minor,
            patch: self.numbers.patch,
            pre: self.kept_pre()?,
            build: Vec::new(),
        };
        Ok(ReadVersion {
            version,
            digits: self.digits,
        })
    }
}

impl PreReleaseEnd<'_> {
    /// Returns the identifiers as a version keeps them. `Err` means out of memory.
    fn kept_pre(&self) -> Result<Vec<Identifier>, AllocError> {
        let mut pre = kept_parts(self.pre)?;
        if self.successor || self.pre.is_empty() {
            pre.fallible_push(Identifier::Numeric(0))?;
        }
        Ok(pre)
    }
}

/// Returns the parts of a pre-release as ranges keep them. `Err` means out of memory.
fn kept_parts(pre: &[u8]) -> Result<Vec<Identifier>, AllocError> {
    of_parts(text_of_parts(pre), |part| kept_part(part))
}

/// Returns a part of a pre-release as ranges keep it. `Err` means out of memory.
fn kept_part(part: &str) -> Result<Identifier, AllocError> {
    match number_of_digits(part.as_bytes()) {
        Some(number) => Ok(Identifier::Numeric(number)),
        None => Ok(Identifier::AlphaNumeric(String::fallible_from_str(part)?)),
    }
}
