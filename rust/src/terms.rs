//! The terms of a range, as they are written.

use crate::{Dialect, Error, Span, Terms};
use core::iter::FusedIterator;
use core::ops::Range;

/// Returns an iterator over the terms of a range string in a dialect, as they are written: the
/// operator, each version with its components, and the position of each part in the string. It
/// allocates only if it returns an error.
///
/// A tool that edits a requirement can replace the span of a version, and leave everything else as
/// it is:
///
/// ```
/// use semver_parser::{satisfies, terms, Dialect};
///
/// let mut range = String::from("~1.2 || ^2.0.0");
/// let span = terms(&range, Dialect::Npm)?.last().unwrap().version.span;
/// range.replace_range(span.range(), "2.5.1");
/// assert_eq!(range, "~1.2 || ^2.5.1");
/// assert!(satisfies("2.6.0", &range, Dialect::Npm)?);
/// # Ok::<(), semver_parser::Error>(())
/// ```
///
/// # Errors
///
/// An [`Error`], which says where and why the string isn't a range in the dialect.
pub fn terms(range: &str, dialect: Dialect) -> Result<Terms<'_>, Error> {
    Terms::try_parse(range, dialect).map_err(|error| Error::from_range(error, range, dialect))
}

impl FusedIterator for Terms<'_> {}

impl From<Span> for Range<usize> {
    fn from(span: Span) -> Range<usize> {
        span.range()
    }
}
