// Made by tools/erase.py from crates/semver_texts/src/precedence.rt; not edited by hand.
//! The precedence of versions (SemVer 2.0.0, section 11).

use crate::rattle_std::prelude::*;
use crate::proved::semver_texts::large_number::LargeNumber;
use crate::proved::semver_texts::version::Version;
use crate::rattle_std::cmp::Ordering;

/// An identifier of a pre-release for comparing.
#[derive(Clone, Copy)]
pub enum IdentifierRef<'a> {
    /// A number below 2^64.
    Numeric(u64),
    /// A number of 2^64 or more.
    LargeNumeric(LargeNumber<'a>),
    /// Any other string, as its bytes.
    AlphaNumeric(&'a [u8]),
}

/// The identifiers of a pre-release, in order.
pub trait Identifiers<'a>: Copy {
    /// Returns whether no identifier is left.
    fn is_empty(&self) -> bool;

    /// Takes the first of the identifiers that are left.
    fn next(&mut self) -> Option<IdentifierRef<'a>>;
}

/// Compares two versions by precedence (SemVer 2.0.0, section 11). The result is `Less` if the
/// first version is below the other. Build metadata is ignored. It does not allocate.
///
/// The three numbers are compared first, from left to right. If they are equal, a version without a
/// pre-release is above each version with one, and two pre-releases are compared by the first
/// identifiers that differ: numbers numerically, strings by their bytes, and a number is below any
/// string. If no identifiers differ, the pre-release with more identifiers is above the other.
#[must_use]
pub fn cmp_precedence(version: &Version, other: &Version) -> Ordering {
    compare(
        (version.major, version.minor, version.patch),
        version.pre.as_slice(),
        (other.major, other.minor, other.patch),
        other.pre.as_slice(),
    )
}

/// Compares two versions by precedence, given by their numbers and the identifiers of their
/// pre-releases. It does not allocate.
#[inline(always)]
pub fn compare<'a, A: Identifiers<'a>, B: Identifiers<'a>>(
    numbers: (u64, u64, u64),
    pre: A,
    other_numbers: (u64, u64, u64),
    other_pre: B,
) -> Ordering {
    let by_numbers = numbers.cmp(&other_numbers);
    if by_numbers.is_ne() {
        return by_numbers;
    }
    compare_pre_releases(pre, other_pre)
}

/// Compares two pre-releases. No pre-release is above any pre-release, and two pre-releases are
/// compared by their identifiers.
#[inline(always)]
pub fn compare_pre_releases<'a, A: Identifiers<'a>, B: Identifiers<'a>>(
    version: A,
    other: B,
) -> Ordering {
    match (version.is_empty(), other.is_empty()) {
        (true, true) => Ordering::Equal,
        (true, false) => Ordering::Greater,
        (false, true) => Ordering::Less,
        (false, false) => compare_lists(version, other),
    }
}

/// Compares two lists of identifiers: by the first ones that differ, or if there are none, by
/// length.
fn compare_lists<'a, A: Identifiers<'a>, B: Identifiers<'a>>(version: A, other: B) -> Ordering {
    let (mut rest, mut others) = (version, other);
    while let Some(first) = rest.next() {
        let Some(beside) = others.next() else {
            return Ordering::Greater;
        };
        let ordering = compare_identifiers(first, beside);
        if ordering.is_ne() {
            return ordering;
        }
    }
    if others.is_empty() {
        Ordering::Equal
    } else {
        Ordering::Less
    }
}

/// Compares two identifiers: numbers numerically, strings by their bytes, and a number is below any
/// string.
#[inline(always)]
fn compare_identifiers(first: IdentifierRef<'_>, other: IdentifierRef<'_>) -> Ordering {
    match (first, other) {
        (IdentifierRef::Numeric(number), IdentifierRef::Numeric(bound)) => number.cmp(&bound),
        (IdentifierRef::Numeric(_), _) => Ordering::Less,
        (IdentifierRef::AlphaNumeric(text), IdentifierRef::AlphaNumeric(bound)) => text.cmp(bound),
        (IdentifierRef::AlphaNumeric(_), _) => Ordering::Greater,
        (IdentifierRef::LargeNumeric(_), IdentifierRef::Numeric(_)) => Ordering::Greater,
        (IdentifierRef::LargeNumeric(number), IdentifierRef::LargeNumeric(bound)) => {
            number.compare(&bound)
        }
        (IdentifierRef::LargeNumeric(_), IdentifierRef::AlphaNumeric(_)) => Ordering::Less,
    }
}
