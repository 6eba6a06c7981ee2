// Made by tools/erase.py from crates/semver_versions/src/read_version.rt; not edited by hand.
//! Versions that own their identifiers, and know how the numeric ones are read.

use crate::rattle_std::prelude::*;
use crate::proved::semver_versions::version_ref::VersionRef;
use crate::proved::semver_texts::grammar::Digits;
use crate::proved::semver_texts::identifiers::ByDigits;
use crate::proved::semver_texts::precedence::{Identifiers, compare};
use crate::proved::semver_texts::version::{Identifier, Version};
use crate::rattle_std::AllocError;
use crate::rattle_std::cmp::Ordering;

/// A version, and how its numeric identifiers above 2^64 - 1 are read: as strings, which is how a
/// `Version` keeps them, or as numbers, as Cargo and npm read them.
#[derive(Clone, Debug)]
pub struct ReadVersion {
    /// The version.
    pub version: Version,
    /// How its numeric identifiers are read.
    pub digits: Digits,
}

impl crate::rattle_std::FallibleClone for ReadVersion {
    fn fallible_clone(&self) -> Result<Self, crate::rattle_std::AllocError> {
        match self {
            ReadVersion { version, digits } => Ok(ReadVersion { version: version.fallible_clone()?, digits: *digits }),
        }
    }
}

impl ReadVersion {
    /// Returns a borrowed version without its build metadata. `Err` means out of memory.
    #[inline(always)]
    pub fn of(borrowed: &VersionRef<'_>) -> Result<ReadVersion, AllocError> {
        let version = Version {
            major: borrowed.major(),
            minor: borrowed.minor(),
            patch: borrowed.patch(),
            pre: borrowed.pre_identifiers()?,
            build: Vec::new(),
        };
        Ok(ReadVersion {
            version,
            digits: borrowed.digits(),
        })
    }

    /// Returns the same version without its build metadata. `Err` means out of memory.
    pub fn without_build(&self) -> Result<ReadVersion, AllocError> {
        let version = Version {
            major: self.version.major,
            minor: self.version.minor,
            patch: self.version.patch,
            pre: self.version.pre.fallible_clone()?,
            build: Vec::new(),
        };
        Ok(ReadVersion {
            version,
            digits: self.digits,
        })
    }

    /// Returns the identifiers of the pre-release for comparing.
    #[inline(always)]
    pub fn pre<'a>(&'a self) -> ByDigits<&'a [Identifier]> {
        ByDigits::of(self.version.pre.as_slice(), self.digits)
    }

    /// Compares two versions by precedence.
    pub fn compare_read(&self, other: &ReadVersion) -> Ordering {
        self.compare_version(&other.version, other.digits)
    }

    /// Compares it with a version by precedence, where the version's numeric identifiers are read
    /// as `digits` says.
    #[inline(always)]
    pub fn compare_version(&self, version: &Version, digits: Digits) -> Ordering {
        compare(
            (self.version.major, self.version.minor, self.version.patch),
            self.pre(),
            (version.major, version.minor, version.patch),
            ByDigits::of(version.pre.as_slice(), digits),
        )
    }

    /// Compares a borrowed version with it by precedence, where the borrowed version's numeric
    /// identifiers are read as `digits` says.
    #[inline(always)]
    pub fn compared_ref(&self, borrowed: &VersionRef<'_>, digits: Digits) -> Ordering {
        compare(
            (borrowed.major, borrowed.minor, borrowed.patch),
            borrowed.pre_by(digits),
            (self.version.major, self.version.minor, self.version.patch),
            self.pre(),
        )
    }
}
