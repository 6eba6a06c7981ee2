// Made by tools/erase.py from crates/tool_ranges/src/matching.rt; not edited by hand.
//! Decides whether a version satisfies a range string. Nothing here allocates.

use crate::rattle_std::prelude::*;
use crate::proved::tool_ranges::intervals::{bounds, counted, is_zero};
use crate::proved::tool_ranges::reading::events_of;
use crate::proved::semver_ranges::RangeError;
use crate::proved::semver_ranges::dialect::Dialect;
use crate::proved::semver_ranges::events::Event;
use crate::proved::semver_ranges::grammar::Simple;
use crate::proved::semver_ranges::operator::Operator;
use crate::proved::semver_ranges::partial::Partial;
use crate::proved::semver_ranges::table::fits;
use crate::proved::semver_versions::version::VersionRef;
use crate::proved::version_sets::{Interval, PreReleases};

/// Returns whether a version satisfies a range.
#[inline(always)]
pub(crate) fn answer(
    version: &VersionRef<'_>,
    range: &str,
    dialect: Dialect,
    rule: PreReleases,
) -> Result<bool, RangeError> {
    match matches(version, range, dialect, takes_all(rule)) {
        Ok(progress) => Ok(is_met(&progress, is_release(version), dialect, rule)),
        Err(refusal) => Err(refusal),
    }
}

/// Returns whether each pre-release within the bounds counts.
#[inline(always)]
pub(crate) fn takes_all(rule: PreReleases) -> bool {
    matches!(rule, PreReleases::Included)
}

/// Returns whether the version satisfies the range, by what is known at the end of the string. In
/// npm's dialect, if some range matches everything, every release satisfies the string by default,
/// and no pre-release does.
#[inline(always)]
fn is_met(progress: &Progress, is_release: bool, dialect: Dialect, rule: PreReleases) -> bool {
    let met = match (dialect, rule) {
        (Dialect::Npm, PreReleases::ByDialect | PreReleases::Excluded) if progress.matched_all =>
            is_release,
        _ => progress.met,
    };
    match rule {
        PreReleases::Excluded => is_release && met,
        PreReleases::ByDialect | PreReleases::Included => met,
    }
}

/// What is known of a version after some terms of a range string.
#[derive(Clone, Copy)]
pub(crate) struct Progress {
    /// Whether it satisfies the terms of the current range so far.
    here: bool,
    /// Whether it counts in the current range.
    counts: bool,
    /// Whether the current range matches everything so far.
    matches_all: bool,
    /// Whether it satisfies an earlier range, and counts in it.
    met: bool,
    /// Whether an earlier range matches everything.
    matched_all: bool,
}

impl Progress {
    /// Returns what is known before the first term. A version counts from the beginning, or from
    /// the first term that names its numbers and a pre-release.
    #[inline(always)]
    fn new(counts: bool) -> Progress {
        Progress {
            here: true,
            counts,
            matches_all: true,
            met: false,
            matched_all: false,
        }
    }

    /// Returns what is known after one more term. `by_default` says whether to use the interval for
    /// pre-releases that count by default.
    #[inline(always)]
    fn with_term(
        self,
        simple: &Simple<'_>,
        version: &VersionRef<'_>,
        dialect: Dialect,
        by_default: bool,
    ) -> Progress {
        Progress {
            here: self.here & meets(simple, version, dialect, by_default),
            counts: self.counts | is_stated_by(version, &simple.partial),
            matches_all: self.matches_all & matches_everything(simple),
            ..self
        }
    }

    /// Returns what is known at the end of a range.
    #[inline(always)]
    fn ended(self, counts: bool) -> Progress {
        Progress {
            here: true,
            counts,
            matches_all: true,
            met: self.met | (self.here & self.counts),
            matched_all: self.matched_all | self.matches_all,
        }
    }
}

/// Returns what is known of a version at the end of a string. If `takes_all`, each pre-release
/// counts.
#[inline(always)]
fn matches(
    version: &VersionRef<'_>,
    range: &str,
    dialect: Dialect,
    takes_all: bool,
) -> Result<Progress, RangeError> {
    let grammar = dialect.grammar();
    let counts = counts(version, takes_all);
    let mut events = events_of(range, dialect)?;
    let mut fit = true;
    let mut progress = Progress::new(counts);
    while let Some(event) = events.next_in(grammar) {
        match event? {
            Event::Simple(simple) => {
                fit &= fits(&simple, dialect);
                progress = progress.with_term(&simple, version, dialect, !counts);
            }
            Event::NextRange => progress = progress.ended(counts),
        }
    }
    if !fit {
        return Err(RangeError::NumberTooLarge);
    }
    Ok(progress.ended(counts))
}

/// Returns whether a version counts in each range, whatever its terms name.
#[inline(always)]
fn counts(version: &VersionRef<'_>, takes_all: bool) -> bool {
    takes_all || is_release(version)
}

/// Returns whether a version satisfies a term.
#[inline(always)]
fn meets(simple: &Simple<'_>, version: &VersionRef<'_>, dialect: Dialect, by_default: bool) -> bool {
    interval_of(simple, dialect, by_default).contains(version, dialect.grammar().digits())
}

/// Returns the interval of a term: the one for all versions, or if `by_default`, the one for
/// pre-releases that count by default.
#[inline(always)]
pub(crate) fn interval_of<'t>(
    simple: &Simple<'t>,
    dialect: Dialect,
    by_default: bool,
) -> Interval<'t> {
    if by_default {
        counted(simple, dialect)
    } else {
        bounds(simple, dialect)
    }
}

/// Returns whether a version has no pre-release.
#[inline(always)]
fn is_release(version: &VersionRef<'_>) -> bool {
    !version.is_pre_release()
}

/// Returns whether a partial version names the three numbers of a version, and a pre-release.
#[inline(always)]
fn is_stated_by(version: &VersionRef<'_>, partial: &Partial<'_>) -> bool {
    partial.has_pre_release()
        && partial.states_three()
        && version.major() == partial.major()
        && version.minor() == partial.minor()
        && version.patch() == partial.patch()
}

/// Returns whether npm matches everything with a term.
#[inline(always)]
pub(crate) fn matches_everything(simple: &Simple<'_>) -> bool {
    match simple.operator {
        Operator::Less | Operator::Greater => false,
        Operator::GreaterOrEqual | Operator::Hyphen => is_zero(&simple.partial),
        _ => simple.partial.states_nothing(),
    }
}
