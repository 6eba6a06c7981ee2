// Made by tools/erase.py from crates/version_sets/src/within.rt; not edited by hand.
//! The first version of a kind, with numbers within a limit, that is inside some boundaries.

use crate::rattle_std::prelude::*;
use crate::proved::version_sets::boundary::Boundary;
use crate::proved::version_sets::pre_release::kept_version;
use crate::proved::version_sets::release::Release;
use crate::proved::semver_versions::read_version::ReadVersion;
use crate::proved::semver_versions::version::{Identifier, Version};
use crate::rattle_std::AllocError;
use crate::rattle_std::cmp::Ordering;

/// The first version of a kind at or above a boundary with numbers within a limit. It is the
/// boundary's if its numbers are these, and otherwise the lowest version with these numbers.
pub(crate) struct First<'a, T> {
    pub(crate) boundary: &'a T,
    pub(crate) numbers: Release,
}

impl<'a, T: Boundary> First<'a, T> {
    /// Returns the version of a boundary, if one is given.
    pub(crate) fn at(boundary: Option<&'a T>) -> Option<First<'a, T>> {
        let boundary = boundary?;
        let numbers = boundary.numbers();
        Some(First { boundary, numbers })
    }

    /// Returns the first version at or above a boundary whose numbers are at most `most`.
    fn from_boundary(boundary: &'a T, most: u64) -> Option<First<'a, T>> {
        let numbers = boundary.numbers().within(most)?;
        Some(First { boundary, numbers })
    }

    /// Returns whether it is the version of its boundary.
    fn is_at_boundary(&self) -> bool {
        self.numbers.compare(&self.boundary.numbers()).is_eq()
    }

    /// Returns whether it is below another boundary.
    fn is_below(&self, end: &T) -> bool {
        if self.is_at_boundary() {
            return self.boundary.compare(end).is_lt();
        }
        match self.numbers.compare(&end.numbers()) {
            Ordering::Less => true,
            Ordering::Equal => !end.has_lowest_pre(),
            Ordering::Greater => false,
        }
    }
}

impl First<'_, ReadVersion> {
    /// Returns whether it is above a release.
    pub(crate) fn is_above(&self, release: &Release) -> bool {
        release.compare(&self.numbers).is_lt()
    }

    /// Returns it as a `Version` keeps it, without build metadata. `Err` means out of memory.
    pub(crate) fn version(&self) -> Result<Version, AllocError> {
        if self.is_at_boundary() {
            return kept_version(self.boundary);
        }
        Ok(Version {
            major: self.numbers.major,
            minor: self.numbers.minor,
            patch: self.numbers.patch,
            pre: crate::rattle_std::fallible_vec![Identifier::Numeric(0)]?,
            build: Vec::new(),
        })
    }
}

impl Release {
    /// Returns the lowest numbers at or above these of which none is above `most`, if there are
    /// any.
    fn within(&self, most: u64) -> Option<Release> {
        let (major, minor, patch) = (self.major, self.minor, self.patch);
        if major > most {
            return None;
        }
        if minor <= most {
            if patch <= most {
                return Some(*self);
            }
            if minor < most {
                return Some(Release {
                    major,
                    minor: minor + 1,
                    patch: 0,
                });
            }
        }
        if major == most {
            return None;
        }
        Some(Release {
            major: major + 1,
            minor: 0,
            patch: 0,
        })
    }
}

/// Returns the first version inside the boundaries whose numbers are at most `most`.
pub(crate) fn first_inside<T: Boundary>(boundaries: &[T], most: u64) -> Option<First<'_, T>> {
    let mut rest = boundaries;
    loop {
        let Some((begin, others)) = rest.split_first() else {
            return None;
        };
        let first = First::from_boundary(begin, most)?;
        let Some((end, after)) = others.split_first() else {
            return Some(first);
        };
        if first.is_below(end) {
            return Some(first);
        }
        rest = after;
    }
}
