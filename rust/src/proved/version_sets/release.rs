// Made by tools/erase.py from crates/version_sets/src/release.rt; not edited by hand.
//! Releases: versions without a pre-release and build metadata.

use crate::rattle_std::prelude::*;
use crate::proved::semver_versions::version::Version;

/// A release: the three numbers of a version. Its derived order is precedence.
#[derive(Clone, Copy, PartialEq, Eq, PartialOrd, Ord, Hash, Debug)]
pub struct Release {
    /// The first number: 1 in 1.2.3.
    pub major: u64,
    /// The second number: 2 in 1.2.3.
    pub minor: u64,
    /// The third number: 3 in 1.2.3.
    pub patch: u64,
}

impl Release {
    /// Returns the numbers of a version, without its pre-release and build metadata.
    pub fn from_version(version: &Version) -> Release {
        Release {
            major: version.major,
            minor: version.minor,
            patch: version.patch,
        }
    }

    /// Returns the release as a version, without a pre-release and build metadata. It does not
    /// allocate.
    pub fn version(self) -> Version {
        Version {
            major: self.major,
            minor: self.minor,
            patch: self.patch,
            pre: Vec::new(),
            build: Vec::new(),
        }
    }

    /// Returns whether a release is below another by precedence. The numbers are compared without
    /// branches, for speed.
    #[inline(always)]
    pub(crate) fn is_below(&self, other: &Release) -> bool {
        (self.major < other.major)
            | ((self.major == other.major) & (self.after_major() < other.after_major()))
    }

    /// Returns the second and the third number combined in one integer, which can be compared in
    /// one step.
    #[inline(always)]
    fn after_major(&self) -> u128 {
        u128::from(self.minor) * 0x1_0000_0000_0000_0000 + u128::from(self.patch)
    }
}

/// The lowest numbers.
pub(crate) const LOWEST: Release = Release {
    major: 0,
    minor: 0,
    patch: 0,
};

/// Returns the numbers right after the given ones, or `None` after the highest.
pub(crate) fn next_numbers(numbers: Release) -> Option<Release> {
    let (major, minor) = (numbers.major, numbers.minor);
    if let Some(patch) = numbers.patch.checked_add(1) {
        return Some(Release {
            major,
            minor,
            patch,
        });
    }
    if let Some(minor) = minor.checked_add(1) {
        return Some(Release {
            major,
            minor,
            patch: 0,
        });
    }
    let major = major.checked_add(1)?;
    Some(Release {
        major,
        minor: 0,
        patch: 0,
    })
}
