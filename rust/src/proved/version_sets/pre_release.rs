// Made by tools/erase.py from crates/version_sets/src/pre_release.rt; not edited by hand.
//! Boundaries of pre-releases.

use crate::rattle_std::prelude::*;
use crate::proved::version_sets::boundary::Boundary;
use crate::proved::version_sets::comparators::ComparatorRef;
use crate::proved::version_sets::release::{Release, next_numbers};
use crate::proved::version_sets::set_ranges::is_lowest_pre;
use crate::proved::version_sets::successor::Successor;
use crate::proved::semver_ranges::Op;
use crate::proved::semver_texts::grammar::Digits;
use crate::proved::semver_texts::precedence::compare_pre_releases;
use crate::proved::semver_versions::read_version::ReadVersion;
use crate::proved::semver_versions::version::{Identifier, Version};
use crate::rattle_std::AllocError;
use crate::rattle_std::cmp::Ordering;

/// A boundary of pre-releases: a version, and how its numeric identifiers are read.
impl Boundary for ReadVersion {
    fn compare(&self, other: &ReadVersion) -> Ordering {
        self.compare_read(other)
    }

    /// Copies the version without its build metadata.
    fn at_same_place(&self) -> Result<ReadVersion, AllocError> {
        self.without_build()
    }

    fn numbers(&self) -> Release {
        Release::from_version(&self.version)
    }

    fn has_lowest_pre(&self) -> bool {
        is_lowest_pre(&self.version.pre)
    }

    fn is_alone(&self, to: Option<&ReadVersion>) -> bool {
        match to {
            Some(to) => {
                to.numbers().compare(&self.numbers()).is_eq() && are_right_above(to, self)
            }
            None => false,
        }
    }

    fn comparator<'a>(&'a self, op: Op) -> ComparatorRef<'a> {
        ComparatorRef {
            op,
            numbers: self.numbers(),
            pre: self.version.pre.as_slice(),
            digits: self.digits,
        }
    }

    fn upper_comparator<'a>(&self, to: &'a ReadVersion) -> ComparatorRef<'a> {
        if !begins_next_numbers(to, self) {
            return to.comparator(Op::Lt);
        }
        ComparatorRef {
            op: Op::Lt,
            numbers: self.numbers(),
            pre: &[],
            digits: Digits::Kept,
        }
    }
}

/// Returns whether a boundary is at the lowest pre-release of the numbers right above another's.
fn begins_next_numbers(boundary: &ReadVersion, below: &ReadVersion) -> bool {
    match next_numbers(below.numbers()) {
        Some(next) => {
            boundary.numbers().compare(&next).is_eq()
                && !boundary.version.pre.is_empty()
                && boundary.has_lowest_pre()
        }
        None => false,
    }
}

/// Returns whether the identifiers of a boundary are another's followed by the number 0.
fn are_right_above(boundary: &ReadVersion, below: &ReadVersion) -> bool {
    let above = Successor {
        identifiers: below.pre(),
        zero: true,
    };
    compare_pre_releases(boundary.pre(), above).is_eq()
}

/// Returns the version as a `Version` keeps it, without build metadata. `Err` means out of memory.
pub(crate) fn kept_version(read: &ReadVersion) -> Result<Version, AllocError> {
    Ok(Version {
        major: read.version.major,
        minor: read.version.minor,
        patch: read.version.patch,
        pre: kept_identifiers(&read.version.pre, read.digits)?,
        build: Vec::new(),
    })
}

/// Copies identifiers, read as `digits` says, as a `Version` keeps them. `Err` means out of memory.
fn kept_identifiers(
    identifiers: &[Identifier],
    digits: Digits,
) -> Result<Vec<Identifier>, AllocError> {
    let mut copies = Vec::fallible_with_capacity(identifiers.len())?;
    for identifier in identifiers {
        copies.fallible_push(kept_identifier(identifier, digits)?)?;
    }
    Ok(copies)
}

/// Copies an identifier, read as `digits` says, as a `Version` keeps it. `Err` means out of memory.
fn kept_identifier(identifier: &Identifier, digits: Digits) -> Result<Identifier, AllocError> {
    let _digits = digits;
    match identifier {
        Identifier::Numeric(number) => Ok(Identifier::Numeric(*number)),
        Identifier::AlphaNumeric(text) => Ok(Identifier::AlphaNumeric(text.fallible_clone()?)),
    }
}
