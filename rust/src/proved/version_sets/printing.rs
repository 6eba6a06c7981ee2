// Made by tools/erase.py from crates/version_sets/src/printing.rt; not edited by hand.
//! Writes a set as a string, directly from its boundaries.

use crate::rattle_std::prelude::*;
use crate::proved::version_sets::boundary::Boundary;
use crate::proved::version_sets::comparators::{ComparatorRef, IntervalComparators, first_interval, is_lowest};
use crate::proved::version_sets::version_set::VersionSet;
use crate::proved::semver_texts::printing::write_part;
use crate::rattle_std::fmt;

impl fmt::Display for ComparatorRef<'_> {
    /// Writes the comparator as the `Comparator` of the same parts is written.
    fn fmt(&self, f: &mut fmt::Formatter<'_>) -> fmt::Result {
        let (op, numbers) = (&self.op, self.numbers);
        let (major, minor, patch) = (numbers.major, numbers.minor, numbers.patch);
        write!(f, "{op}{major}.{minor}.{patch}")?;
        write_part(f, "-", self.pre)
    }
}

impl fmt::Display for VersionSet {
    /// Writes the set in npm's syntax, in which a space separates the comparators.
    fn fmt(&self, f: &mut fmt::Formatter<'_>) -> fmt::Result {
        self.write_joined(f, " ")
    }
}

impl VersionSet {
    /// Writes the set, with a string between the comparators of an interval. First come its
    /// releases as a range, or `<0.0.0-0` if the set is empty. If it contains pre-releases, they
    /// follow after `, pre-releases `, as a range that is to be compared by precedence. If it
    /// contains only pre-releases, the first comma is missing. It does not allocate, and its only
    /// error is the writer's.
    pub fn write_joined(&self, f: &mut fmt::Formatter<'_>, joint: &str) -> fmt::Result {
        if self.pre_releases.is_empty() {
            return write_ranges(f, &self.releases, joint);
        }
        if self.releases.is_empty() {
            f.write_str("pre-releases ")?;
            return write_ranges(f, &self.pre_releases, joint);
        }
        write_ranges(f, &self.releases, joint)?;
        f.write_str(", pre-releases ")?;
        write_ranges(f, &self.pre_releases, joint)
    }
}

/// Writes the intervals of increasing boundaries, separated by ` || `: `*` if they contain all
/// versions of the kind, and `<0.0.0-0` if they contain none.
fn write_ranges<T: Boundary>(
    f: &mut fmt::Formatter<'_>,
    boundaries: &[T],
    joint: &str,
) -> fmt::Result {
    if is_whole(boundaries) {
        return f.write_str("*");
    }
    let Some((first, others)) = first_interval(boundaries) else {
        return f.write_str("<0.0.0-0");
    };
    write_interval(f, &first, joint)?;
    write_others(f, others, joint)
}

/// Writes intervals, each after ` || `.
fn write_others<T: Boundary>(
    f: &mut fmt::Formatter<'_>,
    boundaries: &[T],
    joint: &str,
) -> fmt::Result {
    let mut left = boundaries;
    while let Some((next, others)) = first_interval(left) {
        f.write_str(" || ")?;
        write_interval(f, &next, joint)?;
        left = others;
    }
    Ok(())
}

/// Writes the comparators of an interval, with a string between them.
fn write_interval(
    f: &mut fmt::Formatter<'_>,
    interval: &IntervalComparators<'_>,
    joint: &str,
) -> fmt::Result {
    let first = &interval.first;
    match &interval.second {
        None => write!(f, "{first}"),
        Some(second) => write!(f, "{first}{joint}{second}"),
    }
}

/// Returns whether the intervals contain all versions of a kind. The last release of all has no
/// upper bound either, but it is written as a single version.
fn is_whole<T: Boundary>(boundaries: &[T]) -> bool {
    match boundaries {
        [only, others @ ..] if others.is_empty() => {
            is_lowest(only) && !only.is_alone(others.first())
        }
        _ => false,
    }
}
