// Made by tools/erase.py from crates/release_filter/src/contained.rt; not edited by hand.
//! Filters the versions that are in a set from a list.

use crate::rattle_std::prelude::*;
use crate::proved::semver_versions::version::Version;
use crate::rattle_std::AllocError;
use crate::proved::version_sets::VersionSet;

/// The number of versions that are checked together, before the ones in the set are kept.
const AT_ONCE: usize = 64;

/// Returns the versions that are in a set, in their order and with repeats.
///
/// Each version is checked once. The result is allocated as it grows, and not at all if no version
/// is in the set. `Err` means out of memory.
pub(crate) fn contained<'v>(
    set: &VersionSet,
    versions: &'v [Version],
) -> Result<Vec<&'v Version>, AllocError> {
    let mut kept = Vec::new();
    let mut rest = versions;
    while !rest.is_empty() {
        let (first, others) = rest.split_at(rest.len().min(AT_ONCE));
        keep(set, first, &mut kept)?;
        rest = others;
    }
    Ok(kept)
}

/// Adds the versions that are in a set, of at most 64. First all are checked, and the indices of
/// those in the set are moved to the front; then they are added. So only the end of a loop depends
/// on the checks.
fn keep<'v>(
    set: &VersionSet,
    versions: &'v [Version],
    kept: &mut Vec<&'v Version>,
) -> Result<(), AllocError> {
    let mut are_in = [false; AT_ONCE];
    let are_in = &mut are_in[..versions.len()];
    set.contains_each(versions, are_in);
    let mut places = [0u8; AT_ONCE];
    let mut count = 0;
    for at in 0..versions.len() {
        places[count] = at as u8;
        count += usize::from(are_in[at]);
    }
    for place in &places[..count] {
        kept.fallible_push(&versions[usize::from(*place)])?;
    }
    Ok(())
}
