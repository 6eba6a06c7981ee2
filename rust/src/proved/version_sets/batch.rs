// Made by tools/erase.py from crates/version_sets/src/batch.rt; not edited by hand.
//! Checks many versions against a set at once.

use crate::rattle_std::prelude::*;
use crate::proved::version_sets::release::Release;
use crate::proved::version_sets::version_set::VersionSet;
use crate::proved::semver_versions::version::Version;

/// Sets each answer to whether its version is in the set.
pub(crate) fn contains(set: &VersionSet, versions: &[Version], answers: &mut [bool]) {
    for at in 0..versions.len() {
        answers[at] = set.contains(&versions[at]);
    }
}

/// Sets each answer to whether its version is a release that isn't below `from`, and that is below
/// `to`, if there is such a bound. No answer depends on a branch.
pub(crate) fn is_release_between(
    from: Release,
    to: Option<Release>,
    versions: &[Version],
    answers: &mut [bool],
) {
    for at in 0..versions.len() {
        let version = &versions[at];
        let release = Release::from_version(version);
        let is_below = match &to {
            Some(to) => release.is_below(to),
            None => true,
        };
        answers[at] = version.pre.is_empty() & (!release.is_below(&from) & is_below);
    }
}
