// Made by tools/erase.py from crates/command_line/src/excerpt.rt; not edited by hand.
//! A string, or the part of a long one around an offset.

use crate::rattle_std::prelude::*;
use crate::proved::invalid_strings::escaped::Escaped;
use crate::rattle_std::AllocError;
use crate::rattle_std::fmt::{self, Display, Formatter};

/// How many bytes of a long string are shown before and after the offset.
const REACH: usize = 32;

/// The part of a string that is shown.
pub(crate) struct Excerpt<'a> {
    /// The part that is shown.
    text: &'a str,
    /// The length of the part that is before the offset.
    before: &'a str,
    /// What is shown instead of the parts that are left out, before and after it.
    left_out: (&'static str, &'static str),
}

impl<'a> Excerpt<'a> {
    /// Returns what is shown of a string around an offset.
    pub(crate) fn round(text: &'a str, offset: usize) -> Excerpt<'a> {
        let begin = boundary(text, offset.saturating_sub(REACH));
        let end = boundary(text, offset.saturating_add(REACH).min(text.len()));
        Excerpt {
            text: text.get(begin..end).unwrap_or(text),
            before: text.get(begin..offset).unwrap_or(""),
            left_out: (
                if begin > 0 { "..." } else { "" },
                if end < text.len() { "..." } else { "" },
            ),
        }
    }

    /// Writes the string in a line of its own, and in the next line a caret below the offset. If
    /// the string is empty, it writes only the indentation.
    pub(crate) fn write_pointed(&self, out: &mut String) -> Result<(), AllocError> {
        out.fallible_push_str("\n    ")?;
        if self.text.is_empty() {
            return Ok(());
        }
        let text = Escaped { text: self.text };
        write!(out, "{}{text}{}\n    ", self.left_out.0, self.left_out.1)?;
        let mut before = String::new();
        write!(
            before,
            "{}{}",
            self.left_out.0,
            Escaped { text: self.before }
        )?;
        for _ in before.bytes() {
            out.fallible_push(' ')?;
        }
        out.fallible_push_str("^ ")
    }
}

impl Display for Excerpt<'_> {
    fn fmt(&self, f: &mut Formatter<'_>) -> fmt::Result {
        let text = Escaped { text: self.text };
        write!(f, "{}\"{text}\"{}", self.left_out.0, self.left_out.1)
    }
}

/// Returns the last offset between two characters that isn't after the given offset.
fn boundary(text: &str, offset: usize) -> usize {
    for back in 0..4 {
        let at = offset.saturating_sub(back);
        if text.is_char_boundary(at) {
            return at;
        }
    }
    0
}
