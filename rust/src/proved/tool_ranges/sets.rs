// Made by tools/erase.py from crates/tool_ranges/src/sets.rt; not edited by hand.
//! A range string as the set of the versions that satisfy it.

use crate::rattle_std::prelude::*;
use crate::proved::tool_ranges::intervals::{bounds, release};
use crate::proved::tool_ranges::matching::{interval_of, matches_everything, takes_all};
use crate::proved::tool_ranges::reading::checked_of;
use crate::proved::semver_ranges::RangeError;
use crate::proved::semver_ranges::checked::Checked;
use crate::proved::semver_ranges::dialect::Dialect;
use crate::proved::semver_ranges::events::Event;
use crate::proved::semver_ranges::grammar::Simple;
use crate::proved::semver_ranges::partial::Partial;
use crate::rattle_std::AllocError;
use crate::proved::version_sets::{Conjunction, PreReleases, Ranges, Release, VersionSet};

/// Reads a range into the set of the versions that satisfy it. The string is checked first, so
/// nothing is allocated for an invalid one.
#[inline(always)]
pub(crate) fn read(
    range: &str,
    dialect: Dialect,
    rule: PreReleases,
) -> Result<VersionSet, RangeError> {
    let checked = checked_of(range, dialect)?;
    match set_of(checked, dialect, rule) {
        Ok(set) => Ok(set),
        Err(_) => Err(RangeError::OutOfMemory),
    }
}

/// Returns the set of a range that was checked. `Err` means out of memory.
#[inline(always)]
fn set_of(
    mut checked: Checked<'_>,
    dialect: Dialect,
    rule: PreReleases,
) -> Result<VersionSet, AllocError> {
    let all = takes_all(rule);
    let grammar = dialect.grammar();
    let mut building = Building::new();
    while let Some(event) = checked.next(grammar) {
        match event {
            Event::Simple(simple) => building.push_term(&simple, dialect, all)?,
            Event::NextRange => building.end_range(all)?,
        }
    }
    building.into_set(dialect, rule)
}

/// What is known after some terms of a range string.
pub(crate) struct Building<'text> {
    /// The versions of earlier ranges.
    ranges: Ranges<'text>,
    /// The versions that satisfy the terms of the current range so far.
    here: Conjunction<'text>,
    /// The numbers of the terms of the current range that name a pre-release.
    stated: Vec<Release>,
    /// Whether the current range matches everything so far.
    matches_all: bool,
    /// Whether an earlier range matches everything.
    matched_all: bool,
}

impl<'text> Building<'text> {
    /// Returns what is known before the first term. It does not allocate.
    fn new() -> Building<'text> {
        Building {
            ranges: Ranges::new(),
            here: Conjunction::new(),
            stated: Vec::new(),
            matches_all: true,
            matched_all: false,
        }
    }

    /// Adds a term. `Err` means out of memory.
    #[inline(always)]
    fn push_term(
        &mut self,
        simple: &Simple<'text>,
        dialect: Dialect,
        all: bool,
    ) -> Result<(), AllocError> {
        self.here = with_term(self.here, simple, dialect, all);
        self.matches_all &= matches_everything(simple);
        if let Some(numbers) = stated_numbers(&simple.partial) {
            self.stated.fallible_push(numbers)?;
        }
        Ok(())
    }

    /// Ends a range. `Err` means out of memory.
    #[inline(never)]
    fn end_range(&mut self, all: bool) -> Result<(), AllocError> {
        self.ranges.push_releases(&self.here)?;
        push_pre_releases(&mut self.ranges, &self.here, &self.stated, all)?;
        self.matched_all |= self.matches_all;
        self.matches_all = true;
        self.here = Conjunction::new();
        self.stated.clear();
        Ok(())
    }
}

impl Building<'_> {
    /// Returns the set at the end of the string. `Err` means out of memory.
    fn into_set(
        self,
        dialect: Dialect,
        rule: PreReleases,
    ) -> Result<VersionSet, AllocError> {
        let digits = dialect.grammar().digits();
        if (self.matched_all | self.matches_all) & is_by_default_of_npm(dialect, rule) {
            return Ranges::new().into_set(&Conjunction::new(), digits);
        }
        let mut ranges = self.ranges;
        push_pre_releases(&mut ranges, &self.here, &self.stated, takes_all(rule))?;
        let set = ranges.into_set(&self.here, digits)?;
        match rule {
            PreReleases::Excluded => Ok(set.only_releases()),
            PreReleases::ByDialect | PreReleases::Included => Ok(set),
        }
    }
}

/// Returns the versions of a range that satisfy one more term.
#[inline(always)]
pub(crate) fn with_term<'text>(
    here: Conjunction<'text>,
    simple: &Simple<'text>,
    dialect: Dialect,
    all: bool,
) -> Conjunction<'text> {
    let pre_releases = interval_of(simple, dialect, !all);
    let digits = dialect.grammar().digits();
    here.and(&bounds(simple, dialect), &pre_releases, digits)
}

/// Adds the pre-releases of a range that count. `Err` means out of memory.
fn push_pre_releases<'text>(
    ranges: &mut Ranges<'text>,
    here: &Conjunction<'text>,
    stated: &[Release],
    all: bool,
) -> Result<(), AllocError> {
    if all {
        return ranges.push_pre_releases(here);
    }
    for numbers in stated {
        ranges.push_stated(here, numbers)?;
    }
    Ok(())
}

/// Returns the numbers of a partial version, if it names all three and a pre-release.
pub(crate) fn stated_numbers(partial: &Partial<'_>) -> Option<Release> {
    if partial.has_pre_release() && partial.states_three() {
        Some(release(partial.numbers()))
    } else {
        None
    }
}

/// Returns whether, if some range matches everything, every release satisfies the string and no
/// pre-release does.
pub(crate) fn is_by_default_of_npm(dialect: Dialect, rule: PreReleases) -> bool {
    matches!(dialect, Dialect::Npm) && !takes_all(rule)
}
