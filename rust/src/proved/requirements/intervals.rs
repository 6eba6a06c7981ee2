// Made by tools/erase.py from crates/requirements/src/intervals.rt; not edited by hand.
//! Intervals of versions as they are written: a lower and an upper comparator.

use crate::rattle_std::prelude::*;
use crate::proved::semver_ranges::{Comparator, Identifier, Op, Range};
use crate::rattle_std::AllocError;

/// The comparators of an interval, of which one may be missing.
#[derive(Clone, Copy)]
pub(crate) struct Interval<'set> {
    /// `>=`, or `=`.
    pub(crate) lower: Option<&'set Comparator>,
    /// `<`, or `<=`. It may also be `=`, which is then written as `<=`.
    pub(crate) upper: Option<&'set Comparator>,
}

/// Returns the interval of a range.
fn interval_of(range: &Range) -> Interval<'_> {
    let mut interval = Interval {
        lower: None,
        upper: None,
    };
    for comparator in range.comparator_set.as_slice() {
        match comparator.op {
            Op::Lt | Op::Lte => interval.upper = Some(comparator),
            Op::Gt | Op::Gte | Op::Eq => interval.lower = Some(comparator),
        }
    }
    interval
}

/// Returns the intervals of ranges.
pub(crate) fn intervals<'set>(
    ranges: &'set [Range],
) -> Result<Vec<Interval<'set>>, AllocError> {
    let mut all = Vec::fallible_with_capacity(ranges.len())?;
    for range in ranges {
        all.fallible_push(interval_of(range))?;
    }
    Ok(all)
}

/// Returns the intervals of releases, to which the intervals of pre-releases that they touch are
/// joined. All others follow.
pub(crate) fn joined<'set>(
    releases: &'set [Range],
    pre_releases: &'set [Range],
) -> Result<Vec<Interval<'set>>, AllocError> {
    let mut all = intervals(releases)?;
    for range in pre_releases {
        let found = interval_of(range);
        if !join(all.as_mut_slice(), &found) {
            all.fallible_push(found)?;
        }
    }
    Ok(all)
}

/// Joins an interval of pre-releases to the first interval that it touches. Returns whether there
/// is one. If that is a single release, it becomes the upper bound: `>=1.2.3-b <=1.2.3`.
fn join<'set>(all: &mut [Interval<'set>], found: &Interval<'set>) -> bool {
    for at in 0..all.len() {
        let other = all[at];
        if ends_at(found, &other) {
            all[at].lower = found.lower;
            if other.upper.is_none() && is_equal(other.lower) {
                all[at].upper = other.lower;
            }
            return true;
        }
        if begins_at(found, &other) {
            all[at].upper = found.upper;
            return true;
        }
    }
    false
}

/// Returns whether an interval of pre-releases ends where another interval begins, as
/// `>=1.2.3-b <1.2.3` and `>=1.2.3`.
fn ends_at(found: &Interval<'_>, other: &Interval<'_>) -> bool {
    match (found.lower, found.upper, other.lower) {
        (Some(lower), Some(upper), Some(begin)) => {
            upper.pre.is_empty()
                && have_same_numbers(upper, begin)
                && have_same_numbers(lower, begin)
        }
        _ => false,
    }
}

/// Returns whether an interval of pre-releases begins where another interval ends, as
/// `>=2.0.0-0 <2.0.0-b` and `<2.0.0`.
fn begins_at(found: &Interval<'_>, other: &Interval<'_>) -> bool {
    match (found.lower, other.upper) {
        (Some(lower), Some(end)) => has_lowest_pre(lower) && have_same_numbers(lower, end),
        _ => false,
    }
}

/// Returns whether a comparator is `=`.
fn is_equal(comparator: Option<&Comparator>) -> bool {
    comparator.is_some_and(|it| matches!(it.op, Op::Eq))
}

/// Returns whether a comparator is `>=` with the lowest pre-release of its numbers.
fn has_lowest_pre(comparator: &Comparator) -> bool {
    matches!(comparator.op, Op::Gte)
        && matches!(comparator.pre.as_slice(), [Identifier::Numeric(0)])
}

/// Returns whether two comparators have the same three numbers.
fn have_same_numbers(one: &Comparator, other: &Comparator) -> bool {
    one.major == other.major && one.minor == other.minor && one.patch == other.patch
}

/// Returns the intervals of pre-releases, each with those bounds of the interval of releases with
/// the same index that are at another place.
pub(crate) fn paired<'set>(
    releases: &'set [Range],
    pre_releases: &'set [Range],
) -> Result<Vec<Interval<'set>>, AllocError> {
    let mut all = intervals(pre_releases)?;
    let count = all.len().min(releases.len());
    for at in 0..count {
        let release = interval_of(&releases[at]);
        if !is_at_same_place(all[at].lower, release.lower) {
            all[at].lower = release.lower;
        }
        if !is_at_same_place(all[at].upper, release.upper) {
            all[at].upper = release.upper;
        }
    }
    Ok(all)
}

/// Returns whether two comparators have the same numbers, or both are missing.
fn is_at_same_place(one: Option<&Comparator>, other: Option<&Comparator>) -> bool {
    match (one, other) {
        (Some(one), Some(other)) => have_same_numbers(one, other),
        (None, None) => true,
        _ => false,
    }
}

/// Writes intervals, with `||` between them. No interval is written as `<0.0.0-0`.
pub(crate) fn write(
    all: &[Interval<'_>],
    joint: &str,
) -> Result<String, AllocError> {
    let mut text = String::new();
    if all.is_empty() {
        text.fallible_push_str("<0.0.0-0")?;
    }
    for at in 0..all.len() {
        if at > 0 {
            text.fallible_push_str(" || ")?;
        }
        write_interval(&mut text, &all[at], joint)?;
    }
    Ok(text)
}

/// Writes an interval. One without comparators, or from the lowest version on, is written as `*`.
fn write_interval(
    text: &mut String,
    interval: &Interval<'_>,
    joint: &str,
) -> Result<(), AllocError> {
    match (interval.lower, interval.upper) {
        (Some(lower), Some(upper)) => {
            write!(text, "{lower}")?;
            text.fallible_push_str(joint)?;
            if is_equal(interval.upper) {
                text.fallible_push_str("<")?;
            }
            write!(text, "{upper}")
        }
        (Some(lower), None) if !is_lowest(lower) => write!(text, "{lower}"),
        (None, Some(upper)) => write!(text, "{upper}"),
        _ => text.fallible_push_str("*"),
    }
}

/// Returns whether a lower comparator is `>=0.0.0` or `>=0.0.0-0`.
fn is_lowest(lower: &Comparator) -> bool {
    let is_zero = lower.major == 0 && lower.minor == 0 && lower.patch == 0;
    is_zero && matches!(lower.op, Op::Gte) && (lower.pre.is_empty() || has_lowest_pre(lower))
}
