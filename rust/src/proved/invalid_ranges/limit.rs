// Made by tools/erase.py from crates/invalid_ranges/src/limit.rt; not edited by hand.
//! Finds the number of a range string that is too large.

use crate::rattle_std::prelude::*;
use crate::proved::invalid_strings::reasons::Reason;
use crate::proved::semver_ranges::cursor::{Cursor, Event};
use crate::proved::semver_ranges::dialect::Dialect;
use crate::proved::semver_ranges::operator::Operator;
use crate::proved::semver_ranges::table::limit;
use crate::proved::semver_ranges::term::RawVersion;
use crate::proved::semver_texts::bytes::run_len;
use crate::proved::semver_texts::decimals::number_of_digits;
use crate::proved::semver_texts::dotted::split_at_dot;
use crate::proved::tool_ranges::large_numbers::too_large;

/// Returns the offset of the number that is too large in a range. It is in the first term that
/// doesn't fit: the first number above the limit of the dialect, or if there is none, the number
/// that is raised and can't be. It is 1 in `=18446744073709551616 || 1`, and 0 if every term fits.
/// It does not allocate.
pub(crate) fn limit_offset(dialect: Dialect, text: &str) -> usize {
    let grammar = dialect.grammar();
    let mut cursor = Cursor::new(text.as_bytes(), grammar);
    while let Some(event) = cursor.next_in(grammar) {
        let Ok(event) = event else {
            return 0;
        };
        if let Some(offset) = offset_in_event(&event, text.len(), dialect) {
            return offset;
        }
    }
    0
}

/// Returns the offset of the number that is too large in a term of a string with a length of `len`
/// bytes, if the event is a term that doesn't fit.
fn offset_in_event(event: &Event<'_>, len: usize, dialect: Dialect) -> Option<usize> {
    let Event::Term(term) = event else {
        return None;
    };
    if let Some(offset) = offset_in(&term.version, term.operator, len, dialect) {
        return Some(offset);
    }
    match &term.upper {
        Some(upper) => offset_in(upper, Operator::LessOrEqual, len, dialect),
        None => None,
    }
}

/// Returns the offset of the number that is too large in a version after an operator, if they don't
/// fit.
fn offset_in(
    version: &RawVersion<'_>,
    operator: Operator,
    len: usize,
    dialect: Dialect,
) -> Option<usize> {
    let index = too_large(operator, &version.components, dialect)?;
    let numbers = without_v(version.from);
    let word = &numbers[..numbers.len() - version.after.len()];
    Some(len - numbers.len() + component_begin(word, index))
}

/// Returns a string without the `v` at its beginning.
fn without_v(text: &[u8]) -> &[u8] {
    match text {
        [b'v', rest @ ..] => rest,
        _ => text,
    }
}

/// Returns the offset of the component with an index, or of the last one if there are fewer.
fn component_begin(components: &[u8], index: usize) -> usize {
    if index == 0 {
        return 0;
    }
    let (component, after) = split_at_dot(components);
    let Some(after) = after else {
        return 0;
    };
    component.len() + 1 + component_begin(after, index - 1)
}

/// Returns why the number at an offset is too large: it is above the limit of the dialect, or it is
/// the limit and can't be raised.
pub(crate) fn limit_reason(dialect: Dialect, text: &[u8]) -> Reason {
    match number_of_digits(&text[..run_len(text)]) {
        Some(number) if number == limit(dialect) => Reason::bound_too_large_in(dialect.grammar()),
        _ => Reason::too_large_in(dialect.grammar()),
    }
}
