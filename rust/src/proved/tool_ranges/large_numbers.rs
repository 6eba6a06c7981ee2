// Made by tools/erase.py from crates/tool_ranges/src/large_numbers.rt; not edited by hand.
//! Which number of a term is too large.

use crate::rattle_std::prelude::*;
use crate::proved::semver_ranges::dialect::Dialect;
use crate::proved::semver_ranges::grammar::Simple;
use crate::proved::semver_ranges::operator::Operator;
use crate::proved::semver_ranges::partial::{Component, Components, Place};
use crate::proved::semver_ranges::table::{Side, fits, limit, sides};

/// Returns the index of the number of a term that is too large, or `None` if the term fits. It is
/// that of the first number above the limit of the dialect, or if there is none, that of the number
/// that is raised for one of the sides and can't be. It is below 3.
#[must_use]
pub(crate) fn too_large(operator: Operator, written: &Components<'_>, dialect: Dialect) -> Option<usize> {
    let simple = Simple::of(operator, written, dialect.grammar());
    if fits(&simple, dialect) {
        return None;
    }
    let (lower, upper) = sides(&simple, dialect);
    match first_above(written, limit(dialect)) {
        Some(index) => Some(index),
        None => Some(raised_index(lower, upper)),
    }
}

/// Returns the index of the first number above a limit, if there is one.
fn first_above(written: &Components<'_>, most: u64) -> Option<usize> {
    let Component::Number(major) = written.major else {
        return None;
    };
    if is_above(major, most) {
        return Some(0);
    }
    let Some(minor) = written.minor else {
        return None;
    };
    let Component::Number(minor) = minor else {
        return None;
    };
    if is_above(minor, most) {
        return Some(1);
    }
    let Some(patch) = written.patch else {
        return None;
    };
    let Component::Number(patch) = patch else {
        return None;
    };
    if is_above(patch, most) {
        return Some(2);
    }
    None
}

/// Returns whether a number is above a limit.
fn is_above(number: Option<u64>, most: u64) -> bool {
    match number {
        Some(number) => number > most,
        None => true,
    }
}

/// Returns the index of the number that is raised for the lower side, or else for the upper one. It
/// is 0 if none is.
fn raised_index(lower: Option<Side>, upper: Option<Side>) -> usize {
    match (lower, upper) {
        (Some(Side::Above(place)), _) => index(place),
        (_, Some(Side::Above(place))) => index(place),
        _ => 0,
    }
}

/// Returns the index of the number at a place, counted from 0.
fn index(place: Place) -> usize {
    match place {
        Place::Major => 0,
        Place::Minor => 1,
        Place::Patch => 2,
    }
}
