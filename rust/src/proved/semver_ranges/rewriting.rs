// Made by tools/erase.py from crates/semver_ranges/src/rewriting.rt; not edited by hand.
//! A range string as plain comparators: those of the sides of its terms.
//!
//! `rewrite` makes no `Checked`, for speed: with one, it took up to 15 % more instructions for a
//! single term.

use crate::rattle_std::prelude::*;
use crate::proved::semver_ranges::checked::{first_term, survey};
use crate::proved::semver_ranges::dialect::Dialect;
use crate::proved::semver_ranges::events::{Event, Events};
use crate::proved::semver_ranges::grammar::Simple;
use crate::proved::semver_ranges::partial::{Partial, lowest_pre_release};
use crate::proved::semver_ranges::range::{Comparator, Identifier, Op, Range};
use crate::proved::semver_ranges::range_set::{RangeError, RangeSet};
use crate::proved::semver_ranges::table::{Side, fits, is_past, sides};
use crate::rattle_std::AllocError;

/// How the bounds of intervals are written.
#[derive(Clone, Copy)]
pub enum Style {
    /// A raised upper bound has no pre-release, such as `<2.0.0`. Only the crate's dialects use it.
    Plain,
    /// A raised upper bound has the lowest pre-release, such as `<2.0.0-0`.
    Exact,
    /// As with `Exact`, and a lower bound below all pre-releases of its numbers has the lowest one,
    /// such as `>=1.2.0-0`.
    Lowest,
}

/// Rewrites a range into plain comparators. The string is checked first, so that an invalid one
/// doesn't allocate.
#[inline(always)]
pub(crate) fn rewrite(
    begin: Events<'_>,
    dialect: Dialect,
    style: Style,
) -> Result<RangeSet, RangeError> {
    let Some((first, rest)) = first_term(begin, dialect.grammar()) else {
        return Err(RangeError::NotARange);
    };
    let fit = fits(&first, dialect);
    let made = if fit & rest.is_at_end() {
        one_range(&first, dialect, style)
    } else {
        let count = survey(rest, fit, dialect)?;
        all_ranges(begin, count, dialect, style)
    };
    match made {
        Ok(ranges) => Ok(RangeSet {
            ranges,
            compat: dialect.mode(),
        }),
        Err(_) => Err(RangeError::OutOfMemory),
    }
}

/// Returns the range of the only term of a string. `Err` means out of memory.
#[inline(always)]
fn one_range(
    simple: &Simple<'_>,
    dialect: Dialect,
    style: Style,
) -> Result<Vec<Range>, AllocError> {
    let mut comparator_set = Vec::fallible_with_capacity(2)?;
    push(simple, dialect, style, &mut comparator_set)?;
    let mut ranges = Vec::fallible_with_capacity(1)?;
    ranges.fallible_push(Range {
        comparator_set,
        compat: dialect.mode(),
    })?;
    Ok(ranges)
}

/// Returns the ranges of a string that was checked, and has `count` of them. `Err` means out of
/// memory.
#[inline(always)]
fn all_ranges(
    mut events: Events<'_>,
    count: usize,
    dialect: Dialect,
    style: Style,
) -> Result<Vec<Range>, AllocError> {
    let grammar = dialect.grammar();
    let compat = dialect.mode();
    let mut ranges = Vec::fallible_with_capacity(count)?;
    let mut comparator_set = Vec::fallible_with_capacity(4)?;
    while let Some(event) = events.next_in(grammar) {
        let Ok(event) = event else {
            return Ok(ranges);
        };
        match event {
            Event::Simple(simple) => push(&simple, dialect, style, &mut comparator_set)?,
            Event::NextRange => {
                ranges.fallible_push(Range {
                    comparator_set,
                    compat,
                })?;
                comparator_set = Vec::fallible_with_capacity(4)?;
            }
        }
    }
    ranges.fallible_push(Range {
        comparator_set,
        compat,
    })?;
    Ok(ranges)
}

/// Adds the comparators of a term. `Err` means out of memory.
#[inline(always)]
fn push(
    simple: &Simple<'_>,
    dialect: Dialect,
    style: Style,
    comparators: &mut Vec<Comparator>,
) -> Result<(), AllocError> {
    let partial = &simple.partial;
    let (first, last) = sides(simple, dialect);
    if first.is_some() & is_past(last) {
        comparators.fallible_push(partial.as_comparator(Op::Eq)?)?;
        return Ok(());
    }
    if let Some(side) = first {
        comparators.fallible_push(lower_comparator(partial, side, style)?)?;
    }
    if let Some(side) = last {
        comparators.fallible_push(upper_comparator(partial, side, style)?)?;
    }
    Ok(())
}

/// Returns the comparator of a lower side. With `Lowest` it is right for all versions. Otherwise
/// those of `Below` and `Above` are right only for releases: they leave out the pre-releases of
/// their numbers. `Err` means out of memory.
#[inline(always)]
fn lower_comparator(
    partial: &Partial<'_>,
    side: Side,
    style: Style,
) -> Result<Comparator, AllocError> {
    match (side, style) {
        (Side::Below, Style::Lowest) => {
            Ok(with_numbers(Op::Gte, partial.numbers(), lowest_pre_release()?))
        }
        (Side::At | Side::Below, _) => partial.as_comparator(Op::Gte),
        (Side::Past, _) => partial.as_comparator(Op::Gt),
        (Side::Above(place), Style::Lowest) => {
            Ok(with_numbers(Op::Gte, partial.raised(place), lowest_pre_release()?))
        }
        (Side::Above(place), Style::Plain | Style::Exact) => {
            Ok(with_numbers(Op::Gte, partial.raised(place), Vec::new()))
        }
    }
}

/// Returns the comparator of an upper side. `Err` means out of memory.
#[inline(always)]
fn upper_comparator(
    partial: &Partial<'_>,
    side: Side,
    style: Style,
) -> Result<Comparator, AllocError> {
    match side {
        Side::Below => Ok(with_numbers(Op::Lt, partial.numbers(), lowest_pre_release()?)),
        Side::At => partial.as_comparator(Op::Lt),
        Side::Past => partial.as_comparator(Op::Lte),
        Side::Above(place) => {
            Ok(with_numbers(Op::Lt, partial.raised(place), raised_pre(style)?))
        }
    }
}

/// Returns the pre-release of a raised upper bound. `Err` means out of memory.
#[inline(always)]
fn raised_pre(style: Style) -> Result<Vec<Identifier>, AllocError> {
    match style {
        Style::Plain => Ok(Vec::new()),
        Style::Exact | Style::Lowest => lowest_pre_release(),
    }
}

/// Returns the comparator with three numbers and a pre-release.
#[inline(always)]
fn with_numbers(op: Op, numbers: (u64, u64, u64), pre: Vec<Identifier>) -> Comparator {
    let (major, minor, patch) = numbers;
    Comparator {
        op,
        major,
        minor,
        patch,
        pre,
    }
}
