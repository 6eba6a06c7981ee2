// Made by tools/erase.py from crates/range_upgrades/src/raised_ranges.rt; not edited by hand.
//! A range whose last alternative is raised to a newer version.

use crate::rattle_std::prelude::*;
use crate::proved::range_upgrades::alternatives::Alternative;
use crate::proved::range_upgrades::raised_versions::{Form, raised_version};
use crate::proved::range_terms::term::{PartialVersion, Term};
use crate::proved::range_terms::terms::of_range;
use crate::proved::semver_ranges::dialect::Dialect;
use crate::proved::semver_ranges::operator::Operator;
use crate::proved::semver_versions::version::VersionRef;
use crate::rattle_std::AllocError;
use crate::proved::tool_ranges::at_or_above::has_at_or_above;
use crate::proved::tool_ranges::meaning::Rules;
use crate::proved::version_sets::PreReleases;

/// Returns the range with its last alternative raised in place. It is `None` if the alternative
/// isn't a part of the range, or a number would be above 2^64 - 1. `Err` means out of memory.
pub(crate) fn raised_in_place(
    range: &str,
    last: &Alternative,
    version: &VersionRef<'_>,
    dialect: Dialect,
    form: Form,
) -> Result<Option<String>, AllocError> {
    let Some(before) = part(range, 0, last.start) else {
        return Ok(None);
    };
    let Some(after) = part(range, last.end, range.len()) else {
        return Ok(None);
    };
    let mut new = String::fallible_with_capacity(range.len())?;
    new.fallible_push_str(before)?;
    if !push_alternative(&mut new, range, last, version, dialect, form)? {
        return Ok(None);
    }
    new.fallible_push_str(after)?;
    Ok(Some(new))
}

/// Returns the range with its last alternative, raised, as one more alternative. It is `None` if
/// the range has only one alternative, or the last one isn't a part of it, or a number would be
/// above 2^64 - 1. `Err` means out of memory.
pub(crate) fn raised_as_one_more(
    range: &str,
    last: &Alternative,
    version: &VersionRef<'_>,
    dialect: Dialect,
    form: Form,
) -> Result<Option<String>, AllocError> {
    let Some(end) = last.before else {
        return Ok(None);
    };
    let Some(before) = part(range, 0, last.end) else {
        return Ok(None);
    };
    let Some(between) = part(range, end, last.start) else {
        return Ok(None);
    };
    let Some(after) = part(range, last.end, range.len()) else {
        return Ok(None);
    };
    let mut new = String::fallible_with_capacity(range.len().saturating_mul(2))?;
    new.fallible_push_str(before)?;
    new.fallible_push_str(between)?;
    if !push_alternative(&mut new, range, last, version, dialect, form)? {
        return Ok(None);
    }
    new.fallible_push_str(after)?;
    Ok(Some(new))
}

/// Appends the last alternative to a string, in which each version that has to be raised is
/// replaced. Returns false if the alternative isn't a part of the range, or a number would be above
/// 2^64 - 1. `Err` means out of memory.
fn push_alternative(
    raised: &mut String,
    range: &str,
    last: &Alternative,
    version: &VersionRef<'_>,
    dialect: Dialect,
    form: Form,
) -> Result<bool, AllocError> {
    let mut copied = last.start;
    for term in of_range(range, dialect) {
        if !is_to_raise(range, last, &term, version, dialect) {
            continue;
        }
        let written = last_version(&term);
        let Some(new) = raised_version(dialect, term.operator, &written, version, form) else {
            return Ok(false);
        };
        let Some(kept) = part(range, copied, written.span.start) else {
            return Ok(false);
        };
        push_raised(raised, kept, &new)?;
        copied = written.span.end;
    }
    let Some(kept) = part(range, copied, last.end) else {
        return Ok(false);
    };
    raised.fallible_push_str(kept)?;
    Ok(true)
}

/// Appends a part of the range that is kept, and then a raised version. `Err` means out of memory.
fn push_raised(raised: &mut String, kept: &str, new: &PartialVersion<'_>) -> Result<(), AllocError> {
    write!(raised, "{kept}{new}")
}

/// Returns whether the version of a term has to be raised: the term is in the last alternative,
/// doesn't state only a lower bound, and has no version at or above the newer one.
fn is_to_raise(
    range: &str,
    last: &Alternative,
    term: &Term<'_>,
    version: &VersionRef<'_>,
    dialect: Dialect,
) -> bool {
    if term.range != last.range || is_lower_bound(term.operator) {
        return false;
    }
    match part(range, term.span.start, term.span.end) {
        Some(text) => is_below(text, version, dialect),
        None => false,
    }
}

/// Returns whether a term, which is given alone as a range, has no version at or above another
/// version.
fn is_below(term: &str, version: &VersionRef<'_>, dialect: Dialect) -> bool {
    let meaning = Rules {
        dialect,
        pre_releases: PreReleases::Included,
    };
    match has_at_or_above(version, term, meaning) {
        Ok(has) => !has,
        Err(_) => false,
    }
}

/// Returns whether an operator states only a lower bound.
fn is_lower_bound(operator: Operator) -> bool {
    matches!(operator, Operator::Greater | Operator::GreaterOrEqual)
}

/// Returns the version of a term; of a hyphen range, the one after the hyphen.
fn last_version<'t>(term: &Term<'t>) -> PartialVersion<'t> {
    match term.upper {
        Some(upper) => upper,
        None => term.version,
    }
}

/// Returns the part of a string between two offsets, or `None` if one of them divides a character
/// or they aren't in order.
fn part(text: &str, start: usize, end: usize) -> Option<&str> {
    if start <= end && text.is_char_boundary(start) && text.is_char_boundary(end) {
        return Some(&text[start..end]);
    }
    None
}
