// Made by tools/erase.py from crates/tool_ranges/src/widening.rt; not edited by hand.
//! Whether a range is widened to another one. Nothing here allocates.

use crate::rattle_std::prelude::*;
use crate::proved::tool_ranges::matching::matches_everything;
use crate::proved::tool_ranges::reading::checked_of;
use crate::proved::semver_ranges::checked::Checked;
use crate::proved::semver_ranges::comparing::InRanges;
use crate::proved::semver_ranges::dialect::Dialect;
use crate::proved::semver_ranges::events::Event;
use crate::proved::semver_ranges::grammar::Simple;
use crate::proved::semver_ranges::operator::Operator;
use crate::proved::semver_ranges::partial::{Partial, PartialKind};
use crate::proved::semver_texts::identifiers::Joined;
use crate::proved::semver_texts::precedence::compare_pre_releases;
use crate::rattle_std::cmp::Ordering;

/// Returns whether a range is widened to another one. If so, each version that satisfies the range
/// also satisfies the other one, whichever pre-releases count.
///
/// ```text
/// range           other             result
/// ^1 || >=2 <3    ^1 || >=2 <4      true
/// ^1 || ^2        ^1 || ^2 || ^3    true
/// ^1 || ^2        ^1 || ^3          false
/// ^1 || =1.2.3    ^1 || =2.0.0      false
/// ```
///
/// Each alternative of the range has to be at the same position in the other one, and to have as
/// many terms there. Each term has to state the same there, or to be a raised upper bound:
///
/// - Its operator is `<` or `<=`. The right side of a hyphen range counts as `<=`.
/// - It has as many numbers as before, and they are higher.
/// - Before, it had no pre-release, except for the `0` of bounds such as `<2.0.0-0`.
///
/// The other range may have more alternatives after these. None of them may match everything, such
/// as `*`: by default in npm's dialect, no pre-release satisfies a range with such an alternative.
///
/// The result can be false although no version is lost, as in the last row. It is also false if one
/// of the strings is not a range in the dialect, or has a number that is too large. Each range is
/// checked, and then its terms are read once more. Nothing is allocated.
#[must_use]
pub fn is_widened(range: &str, other: &str, dialect: Dialect) -> bool {
    let Ok(old) = checked_of(range, dialect) else {
        return false;
    };
    let Ok(new) = checked_of(other, dialect) else {
        return false;
    };
    are_widened(old, new, dialect)
}

/// Returns whether a range is widened to another one, where both were checked.
fn are_widened(old: Checked<'_>, new: Checked<'_>, dialect: Dialect) -> bool {
    let grammar = dialect.grammar();
    let (mut terms, mut others) = (old, new);
    while let Some(event) = terms.next(grammar) {
        let Some(other) = others.next(grammar) else {
            return false;
        };
        if !is_widened_event(&event, &other) {
            return false;
        }
    }
    are_added(others, dialect)
}

/// Returns whether the terms that are left after an alternative may be added to a range: there are
/// none, or they are of other alternatives, none of which matches everything.
fn are_added(left: Checked<'_>, dialect: Dialect) -> bool {
    let mut terms = left;
    match terms.next(dialect.grammar()) {
        Some(Event::NextRange) => !has_everything(terms, dialect),
        Some(Event::Simple(_)) => false,
        None => true,
    }
}

/// Returns whether some alternative matches everything. The first term that is left begins an
/// alternative.
fn has_everything(left: Checked<'_>, dialect: Dialect) -> bool {
    let grammar = dialect.grammar();
    let mut terms = left;
    let (mut matches_all, mut matched_all) = (true, false);
    while let Some(event) = terms.next(grammar) {
        match event {
            Event::Simple(simple) => matches_all &= matches_everything(&simple),
            Event::NextRange => {
                matched_all |= matches_all;
                matches_all = true;
            }
        }
    }
    matched_all | matches_all
}

/// Returns whether an event is widened to another one.
fn is_widened_event(event: &Event<'_>, other: &Event<'_>) -> bool {
    match (event, other) {
        (Event::Simple(term), Event::Simple(other)) => is_widened_term(term, other),
        (Event::NextRange, Event::NextRange) => true,
        _ => false,
    }
}

/// Returns whether a term is widened to another one.
fn is_widened_term(term: &Simple<'_>, other: &Simple<'_>) -> bool {
    if term.operator != other.operator {
        return false;
    }
    match compare_numbers(&term.partial, &other.partial) {
        Some(Ordering::Equal) => have_same_pre_release(&term.partial, &other.partial),
        Some(Ordering::Less) => may_be_raised(term),
        Some(Ordering::Greater) | None => false,
    }
}

/// Compares the numbers of two partial versions, or returns `None` if one has more than the other.
fn compare_numbers(partial: &Partial<'_>, other: &Partial<'_>) -> Option<Ordering> {
    let major = partial.major().cmp(&other.major());
    let minor = partial.minor().cmp(&other.minor());
    let patch = partial.patch().cmp(&other.patch());
    match (partial.kind(), other.kind()) {
        (PartialKind::XRangeOnly, PartialKind::XRangeOnly) => Some(Ordering::Equal),
        (PartialKind::MajorOnly, PartialKind::MajorOnly) => Some(major),
        (PartialKind::MajorMinor, PartialKind::MajorMinor) => Some(major.then(minor)),
        (PartialKind::MajorMinorPatch, PartialKind::MajorMinorPatch) => {
            Some(major.then(minor.then(patch)))
        }
        _ => None,
    }
}

/// Returns whether two partial versions have the same pre-release, or both none.
fn have_same_pre_release(partial: &Partial<'_>, other: &Partial<'_>) -> bool {
    let pre = Joined::of(partial.pre(), InRanges);
    compare_pre_releases(pre, Joined::of(other.pre(), InRanges)).is_eq()
}

/// Returns whether a term is an upper bound that may be raised.
fn may_be_raised(term: &Simple<'_>) -> bool {
    match term.operator {
        Operator::Less => {
            !term.partial.has_pre_release() || has_lowest_pre_release(&term.partial)
        }
        Operator::LessOrEqual => !term.partial.has_pre_release(),
        _ => false,
    }
}

/// Returns whether the pre-release of a partial version is the lowest one, `0`.
fn has_lowest_pre_release(partial: &Partial<'_>) -> bool {
    let pre = Joined::of(partial.pre(), InRanges);
    compare_pre_releases(pre, Joined::of(b"0", InRanges)).is_eq()
}
