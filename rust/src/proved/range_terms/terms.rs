// Made by tools/erase.py from crates/range_terms/src/terms.rt; not edited by hand.
//! Iterates over the terms of a range string. Nothing here allocates.

use crate::rattle_std::prelude::*;
use crate::proved::range_terms::term::{Component, PartialVersion, Span, Term};
use crate::proved::semver_ranges::cursor::{Cursor, Event};
use crate::proved::semver_ranges::dialect::Dialect;
use crate::proved::semver_ranges::term::{RawTerm, RawVersion};
use crate::proved::semver_ranges::{RangeError, partial};
use crate::proved::semver_texts::dotted::text_of_parts;
use crate::proved::semver_texts::grammar::Grammar;
use crate::proved::tool_ranges::meaning::{Rules, check};
use crate::proved::version_sets::PreReleases;

/// An iterator over the terms of a range, as they are written. It borrows the string and allocates
/// nothing. An empty range, such as the second of `1.2 ||`, has no term.
///
/// ```
/// use semver_parser::{terms, Dialect, Operator};
///
/// let range = "^1.2 || >=3.0.0-rc.1 <4";
/// let found: Vec<_> = terms(range, Dialect::Npm)?
///     .map(|term| (term.range, term.operator, &range[term.version.span.range()]))
///     .collect();
/// assert_eq!(
///     found,
///     [
///         (0, Operator::Caret, "1.2"),
///         (1, Operator::GreaterOrEqual, "3.0.0-rc.1"),
///         (1, Operator::Less, "4"),
///     ]
/// );
/// # Ok::<(), semver_parser::Error>(())
/// ```
#[derive(Debug)]
#[derive(Clone)]
pub struct Terms<'text> {
    /// The length of the whole string.
    len: usize,
    grammar: Grammar,
    /// The number of `||` before what is left.
    range: usize,
    cursor: Cursor<'text>,
}

impl<'text> Terms<'text> {
    /// Checks a range string in a dialect, and returns its terms.
    ///
    /// If the part of the string at the span of a version is replaced by another partial version of
    /// the dialect's grammar, the string is still in the grammar. In Cargo's dialect the
    /// replacement must have a number. So it can be the printed result of
    /// [`PartialVersion::with_version`], for any version of the dialect; in npm's dialect, that
    /// result must have at most 256 characters. Check the new string anyway, since one of its
    /// numbers may be too large.
    ///
    /// # Errors
    ///
    /// The errors of `check_range`, without a string: `NotARange` if and only if the string isn't a
    /// range in the dialect, and `NumberTooLarge` if and only if it is a range, but one of its
    /// numbers, or a bound that is raised by one, is above the dialect's limit.
    pub(crate) fn try_parse(range: &'text str, dialect: Dialect) -> Result<Terms<'text>, RangeError> {
        let meaning = Rules {
            dialect,
            pre_releases: PreReleases::ByDialect,
        };
        check(meaning, range)?;
        Ok(of_range(range, dialect))
    }
}

impl<'text> Iterator for Terms<'text> {
    type Item = Term<'text>;

    fn next(&mut self) -> Option<Term<'text>> {
        next_term(&mut self.cursor, &mut self.range, self.grammar, self.len)
    }
}

/// Returns the next term of a string with a length of `len` bytes, if there is one, and counts the
/// `||` before it.
fn next_term<'text>(
    cursor: &mut Cursor<'text>,
    range: &mut usize,
    grammar: Grammar,
    len: usize,
) -> Option<Term<'text>> {
    while let Some(event) = cursor.next_in(grammar) {
        let Ok(event) = event else {
            return None;
        };
        match event {
            Event::Term(read) => return Some(term_of(&read, *range, len)),
            Event::NextRange => *range += 1,
            Event::EmptyRange => {}
        }
    }
    None
}

/// Returns the terms of a range string that was checked, even if one of its numbers is too large.
#[must_use]
pub fn of_range(range: &str, dialect: Dialect) -> Terms<'_> {
    let grammar = dialect.grammar();
    Terms {
        len: range.len(),
        grammar,
        range: 0,
        cursor: Cursor::new(range.as_bytes(), grammar),
    }
}

/// Returns a term of the range with an index, in a string with a length of `len` bytes.
fn term_of<'text>(read: &RawTerm<'text>, range: usize, len: usize) -> Term<'text> {
    let version = version_of(&read.version, len);
    let upper = match &read.upper {
        Some(upper) => Some(version_of(upper, len)),
        None => None,
    };
    let end = match &upper {
        Some(upper) => upper.span.end,
        None => version.span.end,
    };
    Term {
        range,
        operator: read.operator,
        span: Span {
            start: len - read.from.len(),
            end,
        },
        version,
        upper,
    }
}

/// Returns a version of a term, in a string with a length of `len` bytes.
#[inline]
fn version_of<'text>(written: &RawVersion<'text>, len: usize) -> PartialVersion<'text> {
    let components = &written.components;
    PartialVersion {
        span: Span {
            start: len - written.from.len(),
            end: len - written.after.len(),
        },
        has_v: begins_with_v(written.from),
        major: component(components.major),
        minor: component_if_written(components.minor),
        patch: component_if_written(components.patch),
        pre: text_of_parts(components.pre),
        build: text_of_parts(components.build),
    }
}

/// Returns whether a string begins with `v`.
fn begins_with_v(text: &[u8]) -> bool {
    matches!(text, [b'v', ..])
}

/// Returns a component that was read, if it is written.
fn component_if_written(read: Option<partial::Component>) -> Option<Component> {
    match read {
        Some(read) => Some(component(read)),
        None => None,
    }
}

/// Returns a component that was read.
fn component(read: partial::Component) -> Component {
    match read {
        partial::Component::Number(number) => Component::Number(number.unwrap_or(u64::MAX)),
        partial::Component::Wildcard(byte) => Component::Wildcard(char::from(byte)),
    }
}
