// Made by tools/erase.py from crates/semver_ranges/src/partial.rt; not edited by hand.
//! Partials: the numbers of a term, and its pre-release as a slice of the string.

use crate::rattle_std::prelude::*;
use crate::proved::semver_ranges::range::{Comparator, Identifier, Op};
use crate::proved::semver_texts::decimals::number_of_digits;
use crate::proved::semver_texts::dotted::{of_parts, text_of_parts};
use crate::rattle_std::AllocError;

/// A component: a wildcard as it is written, or a number. The value of a number above 2^64 - 1 is
/// `None`.
#[derive(Clone, Copy)]
pub enum Component {
    Wildcard(u8),
    Number(Option<u64>),
}

/// The components of a partial as they are written.
#[derive(Clone, Copy)]
pub struct Components<'input> {
    /// The first.
    pub major: Component,
    /// The second, if it is written.
    pub minor: Option<Component>,
    /// The third, if it is written.
    pub patch: Option<Component>,
    /// The parts of the pre-release after three components, joined by dots.
    pub pre: &'input [u8],
    /// The parts of the build metadata after three components, joined by dots.
    pub build: &'input [u8],
}

/// How many numbers a partial has.
#[derive(Clone, Copy, Debug)]
pub enum PartialKind {
    /// None: it begins with a wildcard.
    XRangeOnly,
    /// One.
    MajorOnly,
    /// Two.
    MajorMinor,
    /// Three.
    MajorMinorPatch,
}

/// One of the three numbers of a version.
#[derive(Clone, Copy)]
pub enum Place {
    Major,
    Minor,
    Patch,
}

/// The numbers of a partial, with zeros for the missing ones, and its pre-release after three
/// numbers, as a slice of the string.
#[derive(Clone, Copy, Debug)]
pub struct Partial<'input> {
    major: u64,
    minor: u64,
    patch: u64,
    pre: &'input [u8],
    kind: PartialKind,
    fits: bool,
}

impl<'input> Partial<'input> {
    /// Returns the partial of some components. The numbers are those before the first wildcard, and
    /// the pre-release counts only after three numbers.
    #[inline(always)]
    pub(crate) fn of(written: &Components<'input>) -> Partial<'input> {
        let nothing = Partial {
            major: 0,
            minor: 0,
            patch: 0,
            pre: &[],
            kind: PartialKind::XRangeOnly,
            fits: true,
        };
        let Component::Number(major) = written.major else {
            return nothing;
        };
        let one = Partial {
            major: major.unwrap_or(0),
            kind: PartialKind::MajorOnly,
            fits: major.is_some(),
            ..nothing
        };
        let Some(minor) = written.minor else {
            return one;
        };
        let Component::Number(minor) = minor else {
            return one;
        };
        let two = Partial {
            minor: minor.unwrap_or(0),
            kind: PartialKind::MajorMinor,
            fits: one.fits & minor.is_some(),
            ..one
        };
        let Some(patch) = written.patch else {
            return two;
        };
        let Component::Number(patch) = patch else {
            return two;
        };
        Partial {
            patch: patch.unwrap_or(0),
            pre: written.pre,
            kind: PartialKind::MajorMinorPatch,
            fits: two.fits & patch.is_some(),
            ..two
        }
    }

    /// Returns how many numbers the partial has.
    #[inline(always)]
    pub fn kind(&self) -> PartialKind {
        self.kind
    }

    /// Returns whether the partial has no number.
    #[inline(always)]
    pub fn states_nothing(&self) -> bool {
        matches!(self.kind, PartialKind::XRangeOnly)
    }

    /// Returns the place of the first number that isn't 0, or that of the last number if all are 0.
    #[inline(always)]
    pub(crate) fn leading_place(&self) -> Place {
        match self.kind {
            PartialKind::XRangeOnly | PartialKind::MajorOnly => Place::Major,
            PartialKind::MajorMinor | PartialKind::MajorMinorPatch if self.major > 0 =>
                Place::Major,
            PartialKind::MajorMinor => Place::Minor,
            PartialKind::MajorMinorPatch if self.minor > 0 => Place::Minor,
            PartialKind::MajorMinorPatch => Place::Patch,
        }
    }

    /// Returns whether the partial has three numbers.
    #[inline(always)]
    pub fn states_three(&self) -> bool {
        matches!(self.kind, PartialKind::MajorMinorPatch)
    }

    /// Returns the first number, or 0 if it is missing.
    #[inline(always)]
    pub fn major(&self) -> u64 {
        self.major
    }

    /// Returns the second number, or 0 if it is missing.
    #[inline(always)]
    pub fn minor(&self) -> u64 {
        self.minor
    }

    /// Returns the third number, or 0 if it is missing.
    #[inline(always)]
    pub fn patch(&self) -> u64 {
        self.patch
    }

    /// Returns the parts of the pre-release after three numbers, joined by dots.
    #[inline(always)]
    pub fn pre(&self) -> &'input [u8] {
        self.pre
    }

    /// Returns whether the partial has three numbers and a pre-release.
    #[inline(always)]
    pub fn has_pre_release(&self) -> bool {
        !self.pre.is_empty()
    }

    /// Returns whether all numbers of the partial are at most `most`.
    #[inline(always)]
    pub fn states_at_most(&self, most: u64) -> bool {
        self.fits
            && match self.kind {
                PartialKind::XRangeOnly => true,
                PartialKind::MajorOnly => self.major <= most,
                PartialKind::MajorMinor => self.major <= most && self.minor <= most,
                PartialKind::MajorMinorPatch => self.major <= most
                    && self.minor <= most
                    && self.patch <= most,
            }
    }

    /// Returns the number at a place.
    #[inline(always)]
    pub fn number(&self, place: Place) -> u64 {
        match place {
            Place::Major => self.major,
            Place::Minor => self.minor,
            Place::Patch => self.patch,
        }
    }

    /// Returns the three numbers, with zeros for the missing ones.
    #[inline(always)]
    pub fn numbers(&self) -> (u64, u64, u64) {
        (self.major, self.minor, self.patch)
    }

    /// Returns the numbers up to a place, with the last of them raised by one, and zeros after it.
    /// A number that is 2^64 - 1 isn't raised: `tool_ranges` also computes this for terms that
    /// don't fit.
    #[inline(always)]
    pub fn raised(&self, place: Place) -> (u64, u64, u64) {
        match place {
            Place::Major => (self.major.saturating_add(1), 0, 0),
            Place::Minor => (self.major, self.minor.saturating_add(1), 0),
            Place::Patch => (self.major, self.minor, self.patch.saturating_add(1)),
        }
    }

    /// Returns the comparator of an operator and this partial, with zeros for missing numbers.
    /// `Err` means out of memory.
    #[inline(always)]
    pub(crate) fn as_comparator(&self, op: Op) -> Result<Comparator, AllocError> {
        let pre = if self.pre.is_empty() {
            Vec::new()
        } else {
            kept_parts(self.pre)?
        };
        Ok(Comparator {
            op,
            major: self.major,
            minor: self.minor,
            patch: self.patch,
            pre,
        })
    }
}

/// Returns the lowest pre-release, which is `0`. `Err` means out of memory.
#[inline(always)]
pub fn lowest_pre_release() -> Result<Vec<Identifier>, AllocError> {
    let mut pre = Vec::fallible_with_capacity(1)?;
    pre.push_reserved(Identifier::Numeric(0));
    Ok(pre)
}

/// Returns the parts of a pre-release as they are kept. It is a separate function for speed: most
/// partials have no pre-release, and then nothing is called. `Err` means out of memory.
#[inline(never)]
fn kept_parts(pre: &[u8]) -> Result<Vec<Identifier>, AllocError> {
    of_parts(
        text_of_parts(pre),
        |part| read_identifier(part),
    )
}

/// Returns a part as it is kept. `Err` means out of memory.
fn read_identifier(part: &str) -> Result<Identifier, AllocError> {
    match number_of_digits(part.as_bytes()) {
        Some(number) => Ok(Identifier::Numeric(number)),
        None => Ok(Identifier::AlphaNumeric(String::fallible_from_str(part)?)),
    }
}
