// Made by tools/erase.py from crates/semver_errors/src/printing.rt; not edited by hand.
//! What an error prints.

use crate::rattle_std::prelude::*;
use crate::proved::semver_errors::conversions::write_unexpected;
use crate::proved::semver_errors::error::{Cause, Error, Kind, invalid_kind};
use crate::proved::invalid_strings::escaped::{Escaped, write_escaped, write_marks};
use crate::proved::invalid_strings::reasons::Reason;
use crate::proved::range_terms::term::Span;
use crate::proved::repaired_strings::errors::Expected;
use crate::rattle_std::fmt;

impl fmt::Display for Error {
    fn fmt(&self, f: &mut fmt::Formatter<'_>) -> fmt::Result {
        if f.alternate() {
            write_marked(f, &self.cause)
        } else {
            write_line(f, &self.cause)
        }
    }
}

/// Writes one line.
fn write_line(f: &mut fmt::Formatter<'_>, cause: &Cause) -> fmt::Result {
    match cause {
        Cause::Invalid {
            expected,
            string,
            offset,
            reason,
            ..
        } => {
            let kind = kind_text(invalid_kind(*expected));
            let text = Escaped {
                text: string.as_str(),
            };
            write!(f, "{kind} \"{text}\" at offset {offset}: {reason}")
        }
        _ => write_without_place(f, cause),
    }
}

/// Writes what `{:#}` prints.
fn write_marked(f: &mut fmt::Formatter<'_>, cause: &Cause) -> fmt::Result {
    match cause {
        Cause::Invalid {
            expected,
            string,
            reason,
            span,
            ..
        } => write_with_carets(f, *expected, *reason, string.as_str(), *span),
        _ => write_without_place(f, cause),
    }
}

/// Writes what `{:#}` prints for an invalid string: why it is invalid, the string in a line of its
/// own, and carets below a span of it.
pub(crate) fn write_with_carets(
    f: &mut fmt::Formatter<'_>,
    expected: Expected,
    reason: Reason,
    text: &str,
    span: Span,
) -> fmt::Result {
    write_reason_lines(f, expected, reason, text)?;
    write_carets(f, text, span)
}

/// Writes the line of an error that doesn't have the place of an error in a string. For others it
/// writes nothing.
fn write_without_place(f: &mut fmt::Formatter<'_>, cause: &Cause) -> fmt::Result {
    match cause {
        Cause::Invalid { .. } => Ok(()),
        Cause::CannotUpgrade(range) => {
            let kind = kind_text(Kind::CannotUpgrade);
            write_quoted(f, kind, ": \"", range.as_str(), "\"")
        }
        Cause::UnknownName(name, known) => {
            write_quoted(
                f,
                kind_text(Kind::UnknownName),
                " \"",
                name.as_str(),
                "\": expected ",
            )?;
            f.write_str(known)
        }
        Cause::DifferentRules => f.write_str(kind_text(Kind::DifferentRules)),
        Cause::Converted(expected, sentence) => {
            f.write_str(kind_text(invalid_kind(*expected)))?;
            f.write_str(": ")?;
            f.write_str(sentence.as_str())
        }
        Cause::Fixed(expected, sentence) => {
            f.write_str(kind_text(invalid_kind(*expected)))?;
            f.write_str(": ")?;
            f.write_str(sentence)
        }
        Cause::UnexpectedCharacter(character) => {
            f.write_str(kind_text(Kind::InvalidVersion))?;
            f.write_str(": ")?;
            write_unexpected(f, *character)
        }
        Cause::OutOfMemory => f.write_str(kind_text(Kind::OutOfMemory)),
    }
}

/// Returns with what the line of an error begins.
fn kind_text(kind: Kind) -> &'static str {
    match kind {
        Kind::InvalidVersion => "invalid version",
        Kind::InvalidRange => "invalid range",
        Kind::CannotUpgrade => "the requirement can't be raised to this version",
        Kind::DifferentRules => "the ranges were read by different rules",
        Kind::UnknownName => "unknown name",
        Kind::OutOfMemory => "out of memory",
    }
}

/// Writes a string as it is shown, after two strings and before another one.
fn write_quoted(
    f: &mut fmt::Formatter<'_>,
    kind: &str,
    before: &str,
    text: &str,
    after: &str,
) -> fmt::Result {
    f.write_str(kind)?;
    f.write_str(before)?;
    write_escaped(f, text)?;
    f.write_str(after)
}

/// Writes a reason, and the string in a line of its own, up to the line with carets.
fn write_reason_lines(
    f: &mut fmt::Formatter<'_>,
    expected: Expected,
    reason: Reason,
    text: &str,
) -> fmt::Result {
    f.write_str(kind_text(invalid_kind(expected)))?;
    f.write_str(": ")?;
    write_quoted(f, reason.sentence(), "\n    ", text, "\n    ")
}

/// Writes the line below a string: spaces, and then carets for the span.
fn write_carets(f: &mut fmt::Formatter<'_>, text: &str, span: Span) -> fmt::Result {
    write_marks(f, " ", &text[..span.start])?;
    let part = &text[span.start..span.end];
    if part.is_empty() {
        return f.write_str("^");
    }
    write_marks(f, "^", part)
}
