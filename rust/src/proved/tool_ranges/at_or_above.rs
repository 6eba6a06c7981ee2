// Made by tools/erase.py from crates/tool_ranges/src/at_or_above.rt; not edited by hand.
//! Whether a range has a version at or above another one. Nothing here allocates.

use crate::rattle_std::prelude::*;
use crate::proved::tool_ranges::matching::{matches_everything, takes_all};
use crate::proved::tool_ranges::meaning::Rules;
use crate::proved::tool_ranges::reading::checked_of;
use crate::proved::tool_ranges::sets::{is_by_default_of_npm, stated_numbers, with_term};
use crate::proved::semver_ranges::RangeError;
use crate::proved::semver_ranges::checked::Checked;
use crate::proved::semver_ranges::dialect::Dialect;
use crate::proved::semver_ranges::events::Event;
use crate::proved::semver_ranges::partial::Partial;
use crate::proved::semver_versions::version::VersionRef;
use crate::proved::version_sets::{Conjunction, PreReleases};

/// Returns whether some version that satisfies a range isn't below a borrowed version by
/// precedence. The numeric identifiers of the borrowed version are read as in the dialect.
///
/// The range is checked first, and then its terms are read once more. With `ByDialect`, an
/// alternative without such a release is read a third time, for the pre-releases that its terms
/// name. Nothing is allocated.
///
/// # Errors
///
/// The errors of [`satisfies`](crate::proved::tool_ranges::meaning::satisfies).
pub fn has_at_or_above(
    version: &VersionRef<'_>,
    range: &str,
    meaning: Rules,
) -> Result<bool, RangeError> {
    let (dialect, rule) = (meaning.dialect, meaning.pre_releases);
    let checked = checked_of(range, dialect)?;
    let version = version.read_by(dialect.grammar().digits());
    Ok(has_from(checked, &version, dialect, rule))
}

/// Returns whether some version that satisfies a range that was checked isn't below a borrowed
/// version by precedence.
fn has_from(
    checked: Checked<'_>,
    version: &VersionRef<'_>,
    dialect: Dialect,
    rule: PreReleases,
) -> bool {
    let all = takes_all(rule);
    let grammar = dialect.grammar();
    let (mut terms, mut begin) = (checked, checked);
    let mut here = Conjunction::new();
    let (mut found, mut matches_all, mut matched_all) = (false, true, false);
    while let Some(event) = terms.next(grammar) {
        match event {
            Event::Simple(simple) => {
                here = with_term(here, &simple, dialect, all);
                matches_all &= matches_everything(&simple);
            }
            Event::NextRange => {
                found |= has_some(&here, begin, version, dialect, rule);
                matched_all |= matches_all;
                here = Conjunction::new();
                begin = terms;
                matches_all = true;
            }
        }
    }
    if (matched_all | matches_all) & is_by_default_of_npm(dialect, rule) {
        return Conjunction::new().has_release_from(version);
    }
    found | has_some(&here, begin, version, dialect, rule)
}

/// Returns whether some version of a range isn't below a borrowed version by precedence, where
/// `here` has the versions that satisfy the terms of the range, which begins with `begin`.
fn has_some(
    here: &Conjunction<'_>,
    begin: Checked<'_>,
    version: &VersionRef<'_>,
    dialect: Dialect,
    rule: PreReleases,
) -> bool {
    if here.has_release_from(version) {
        return true;
    }
    match rule {
        PreReleases::Excluded => false,
        PreReleases::Included => here.has_pre_release_from(version),
        PreReleases::ByDialect => has_stated(here, begin, version, dialect),
    }
}

/// Returns whether some pre-release of a range isn't below a borrowed version by precedence, where
/// only those count whose numbers some term of the range names, together with a pre-release.
fn has_stated(
    here: &Conjunction<'_>,
    begin: Checked<'_>,
    version: &VersionRef<'_>,
    dialect: Dialect,
) -> bool {
    let grammar = dialect.grammar();
    let mut terms = begin;
    while let Some(event) = terms.next(grammar) {
        match event {
            Event::Simple(simple) => {
                if has_numbers_of(here, &simple.partial, version) {
                    return true;
                }
            }
            Event::NextRange => return false,
        }
    }
    false
}

/// Returns whether some pre-release that has the numbers of a partial version isn't below a
/// borrowed version by precedence. If the partial version has no pre-release, none counts.
fn has_numbers_of(here: &Conjunction<'_>, partial: &Partial<'_>, version: &VersionRef<'_>) -> bool {
    match stated_numbers(partial) {
        Some(numbers) => here.has_stated_from(&numbers, version),
        None => false,
    }
}
