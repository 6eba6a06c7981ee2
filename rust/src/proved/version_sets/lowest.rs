// Made by tools/erase.py from crates/version_sets/src/lowest.rt; not edited by hand.
//! The lowest version of a set.

use crate::rattle_std::prelude::*;
use crate::proved::version_sets::release::Release;
use crate::proved::version_sets::version_set::VersionSet;
use crate::proved::version_sets::within::{First, first_inside};
use crate::proved::semver_versions::read_version::ReadVersion;
use crate::proved::semver_versions::version::Version;
use crate::rattle_std::AllocError;

impl VersionSet {
    /// Returns the lowest version in the set by precedence, without build metadata, or `None` if
    /// and only if the set is empty.
    ///
    /// It allocates only if the result is a pre-release. `Err` means out of memory.
    pub fn lowest(&self) -> Result<Option<Version>, AllocError> {
        let release = First::at(self.releases.first());
        lower(release, First::at(self.pre_releases.first()))
    }

    /// Returns the lowest version in the set by precedence whose three numbers are at most `most`,
    /// without build metadata, or `None` if and only if the set has no such version.
    ///
    /// It takes time linear in the number of boundaries, and allocates only if the result is a
    /// pre-release. `Err` means out of memory.
    pub fn lowest_within(&self, most: u64) -> Result<Option<Version>, AllocError> {
        let release = first_inside(&self.releases, most);
        lower(release, first_inside(&self.pre_releases, most))
    }

    /// Returns the lowest release in the set by precedence, or `None` if and only if the set
    /// contains no release. It does not allocate.
    pub fn lowest_release(&self) -> Option<Release> {
        self.releases.first().copied()
    }
}

/// Returns the lower of a release and a pre-release, or the only one that is given, without build
/// metadata. It allocates only if the result is the pre-release. `Err` means out of memory.
pub(crate) fn lower(
    release: Option<First<'_, Release>>,
    pre_release: Option<First<'_, ReadVersion>>,
) -> Result<Option<Version>, AllocError> {
    let Some(pre_release) = pre_release else {
        return Ok(as_version(&release));
    };
    if is_above(&pre_release, &release) {
        return Ok(as_version(&release));
    }
    Ok(Some(pre_release.version()?))
}

/// Returns whether a pre-release is above a release, if one is given.
fn is_above(pre_release: &First<'_, ReadVersion>, release: &Option<First<'_, Release>>) -> bool {
    match release {
        Some(release) => pre_release.is_above(&release.numbers),
        None => false,
    }
}

/// Returns a release as a version, if one is given.
fn as_version(release: &Option<First<'_, Release>>) -> Option<Version> {
    match release {
        Some(release) => Some(release.numbers.version()),
        None => None,
    }
}
