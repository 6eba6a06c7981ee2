//! Errors of strings: which part of a string is invalid, and what may have been meant.

use crate::proved::repaired_strings::errors::first_error;
use crate::ranges::show;
use crate::shared::{repaired, span_at, Dialect, Expected, Reason, Span, WithCarets};
use crate::{state, status};
use alloc::string::String;
use core::str::from_utf8;

/// Outputs an offset in a string, and the span of the error there. Returns the number of the
/// reason.
pub fn refused(string: &[u8], offset: usize, reason: Reason) -> i32 {
    let none = Span { start: offset, end: offset };
    let span = from_utf8(string).map_or(none, |it| span_at(it, offset, reason));
    state::with(|state| {
        let numbers = [offset, span.start, span.end];
        for (to, number) in state.numbers.iter_mut().zip(numbers) {
            *to = number as u64;
        }
    });
    reason.number()
}

/// Outputs what `{:#}` prints in Rust for the error of a string. Returns 0, or 1 if the string is
/// valid, or the status for out of memory.
pub fn show_with_carets(expected: Expected, string: &[u8], dialect: i32) -> i32 {
    let (Some(dialect), Ok(string)) = (Dialect::from_number(dialect), from_utf8(string)) else {
        return 1;
    };
    match first_error(expected, dialect, string) {
        Ok(Some(it)) => {
            show(WithCarets { expected, reason: it.reason, string, offset: it.offset })
        }
        Ok(None) => 1,
        Err(_) => status::OUT_OF_MEMORY,
    }
}

/// Outputs the valid string that may have been meant. Returns 0, or 1 if none is known, or the
/// status for out of memory.
pub fn suggest(expected: Expected, string: &[u8], dialect: i32) -> i32 {
    let (Some(dialect), Ok(string)) = (Dialect::from_number(dialect), from_utf8(string)) else {
        return 1;
    };
    repaired(expected, dialect, string).map_or(status::OUT_OF_MEMORY, show_if_any)
}

/// Outputs a string. Returns 0, or 1 if there is none, or the status for out of memory.
pub fn show_if_any(string: Option<String>) -> i32 {
    string.map_or(1, show)
}
