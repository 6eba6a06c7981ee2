// Made by tools/erase.py from crates/semver_ranges/src/cargo.rt; not edited by hand.
//! Reads the comparators of Cargo's requirements, which commas separate. What can't be read is
//! `None`.

use crate::rattle_std::prelude::*;
use crate::proved::semver_ranges::grammar::{after_blanks, read_term};
use crate::proved::semver_ranges::operator::Operator;
use crate::proved::semver_ranges::partial::{Component, Components};
use crate::proved::semver_ranges::term::RawTerm;
use crate::proved::semver_texts::dotted::have_no_leading_zeros;
use crate::proved::semver_texts::grammar::Grammar;

/// Returns the first comparator of a string, or the next one after a comma, and what follows it and
/// the blanks after it.
#[inline(always)]
pub(crate) fn next_comparator(text: &[u8], is_first: bool) -> Option<(RawTerm<'_>, &[u8])> {
    let text = if is_first { text } else { after_comma(text)? };
    read_comparator(text, is_first)
}

/// Returns what follows a comma and the blanks after it, if the string begins with a comma.
#[inline(always)]
fn after_comma(text: &[u8]) -> Option<&[u8]> {
    match text {
        [b',', rest @ ..] => Some(after_blanks(rest, Grammar::Cargo)),
        _ => None,
    }
}

/// Returns the comparator at the beginning of a string, and what follows it and the blanks after
/// it.
#[inline(always)]
fn read_comparator(text: &[u8], is_first: bool) -> Option<(RawTerm<'_>, &[u8])> {
    let (term, rest) = read_term(text, Grammar::Cargo)?;
    if may_come(text, &term, is_first && rest.is_empty()) {
        Some((term, rest))
    } else {
        None
    }
}

/// Returns whether a comparator may be at the beginning of a string: Cargo accepts it, and one that
/// states no number is the only one.
#[inline(always)]
fn may_come(text: &[u8], term: &RawTerm<'_>, is_only: bool) -> bool {
    let written = &term.version.components;
    !begins_with_tilde_greater(text)
        && is_of_cargo(term.operator, written)
        && (!begins_with_wildcard(written) || is_only)
}

/// Returns whether a string begins with `~>`, which Cargo doesn't have.
#[inline(always)]
fn begins_with_tilde_greater(text: &[u8]) -> bool {
    matches!(text, [b'~', b'>', ..])
}

/// Returns whether Cargo, which has no hyphen ranges, accepts a comparator.
#[inline(always)]
fn is_of_cargo(operator: Operator, written: &Components<'_>) -> bool {
    !matches!(operator, Operator::Hyphen) && is_accepted(operator, written)
}

/// Returns whether Cargo accepts a version after an operator. A single wildcard without an operator
/// is accepted; it matches every release. All others need all of these:
/// - The first component is a number.
/// - Only wildcards follow a wildcard.
/// - Only three numbers are followed by a pre-release or build metadata.
/// - No number in the pre-release has a leading zero.
#[inline(always)]
fn is_accepted(operator: Operator, written: &Components<'_>) -> bool {
    match (written.major, written.minor, written.patch) {
        (Component::Wildcard(_), None, _) => matches!(operator, Operator::Bare),
        (Component::Wildcard(_), Some(_), _) => false,
        (_, Some(Component::Wildcard(_)), Some(Component::Number(_))) => false,
        (_, _, Some(Component::Wildcard(_))) => !is_qualified(written),
        _ => have_no_leading_zeros(written.pre),
    }
}

/// Returns whether a pre-release or build metadata is written.
#[inline(always)]
fn is_qualified(written: &Components<'_>) -> bool {
    !written.pre.is_empty() || !written.build.is_empty()
}

/// Returns whether the first component is a wildcard, so no number is stated.
#[inline(always)]
fn begins_with_wildcard(written: &Components<'_>) -> bool {
    matches!(written.major, Component::Wildcard(_))
}

/// Returns the operator that Cargo reads, where none means `^`, or `=` with a wildcard.
#[inline(always)]
pub(crate) fn named(operator: Operator, has_wildcard: bool) -> Operator {
    match operator {
        Operator::Bare if has_wildcard => Operator::Equal,
        Operator::Bare => Operator::Caret,
        _ => operator,
    }
}

/// Returns whether some component is a wildcard.
#[inline(always)]
pub(crate) fn has_wildcard(written: &Components<'_>) -> bool {
    match (written.major, written.minor, written.patch) {
        (Component::Wildcard(_), _, _) => true,
        (_, Some(Component::Wildcard(_)), _) | (_, _, Some(Component::Wildcard(_))) => true,
        _ => false,
    }
}
