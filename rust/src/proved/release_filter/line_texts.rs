// Made by tools/erase.py from crates/release_filter/src/line_texts.rt; not edited by hand.
//! The lines of a text, how a piece of it is cut into lines, and the text of a line. A text of more
//! than 1,048,576 bytes has no version.

use crate::rattle_std::prelude::*;
use crate::rattle_std::AllocError;

/// What ends a line.
#[derive(Clone, Copy, Debug, PartialEq, Eq)]
pub enum LineEnd {
    /// A line feed. A carriage return before it isn't part of the line's text.
    LineFeed,
    /// A zero byte, as after the records of `find -print0` and `git tag -z`. The line's text is
    /// everything before it.
    ZeroByte,
}

impl LineEnd {
    /// Returns the byte that ends a line.
    #[inline(always)]
    pub fn byte(self) -> u8 {
        match self {
            LineEnd::LineFeed => b'\n',
            LineEnd::ZeroByte => 0,
        }
    }
}

/// The maximum length in bytes of a text that can have a version.
pub(crate) const LONGEST: usize = 1 << 20;

/// The maximum number of bytes that are held of a line that has not ended: a byte order mark, one
/// byte more than the longest text, and the line's end.
const LONGEST_FRONT: usize = LONGEST + 6;

/// The byte order mark, which some programs write before a text in UTF-8.
const MARK: &[u8] = b"\xEF\xBB\xBF";

/// Cuts a piece of a text into three parts: the end of the line that was begun before, whole lines,
/// and the beginning of another line. If no line ends in the piece, all of it is the last part.
pub(crate) fn cut(piece: &[u8], ending: LineEnd) -> (&[u8], &[u8], &[u8]) {
    let Some(first) = whole_line(piece, ending) else {
        return (&[], &[], piece);
    };
    let rest = &piece[first.len()..];
    let (whole, begun) = rest.split_at(ended_size(rest, ending.byte()));
    (first, whole, begun)
}

/// Returns the length of the bytes up to and including the last `end` byte.
fn ended_size(bytes: &[u8], end: u8) -> usize {
    let mut size = bytes.len();
    while size > 0 && bytes[size - 1] != end {
        size -= 1;
    }
    size
}

/// Appends bytes to the held beginning of a line, up to the maximum length of one. `Err` means out
/// of memory.
pub(crate) fn hold(begun: &mut Vec<u8>, bytes: &[u8]) -> Result<(), AllocError> {
    let room = LONGEST_FRONT - begun.len();
    begun.fallible_extend_from_slice(&bytes[..bytes.len().min(room)])
}

/// Returns the first line, with the byte that ends it if it has one.
#[inline(always)]
pub(crate) fn first_line(bytes: &[u8], ending: LineEnd) -> &[u8] {
    match whole_line(bytes, ending) {
        Some(line) => line,
        None => bytes,
    }
}

/// Returns what is to be appended to the last line: `end`, if each line is to have an end and the
/// line isn't empty, otherwise nothing.
pub(crate) fn closing<'e>(closes: bool, line: &[u8], end: &'e [u8]) -> &'e [u8] {
    if closes && !line.is_empty() { end } else { &[] }
}

/// Returns the first line with the byte that ends it, or `None` if no line has such a byte.
#[inline(always)]
pub(crate) fn whole_line(bytes: &[u8], ending: LineEnd) -> Option<&[u8]> {
    // The byte is a constant in each call, for speed.
    match ending {
        LineEnd::LineFeed => through_first(bytes, b'\n'),
        LineEnd::ZeroByte => through_first(bytes, 0),
    }
}

/// Returns the bytes up to and including the first `end` byte, or `None` if there is none.
#[inline(always)]
fn through_first(bytes: &[u8], end: u8) -> Option<&[u8]> {
    for at in 0..bytes.len() {
        if bytes[at] == end {
            return Some(&bytes[..at + 1]);
        }
    }
    None
}

/// Returns the text of a line: without its line feed and then without one carriage return at its
/// end, or without its zero byte.
#[inline(always)]
pub(crate) fn text_of(line: &[u8], ending: LineEnd) -> &[u8] {
    match ending {
        LineEnd::LineFeed => without_last(without_last(line, b'\n'), b'\r'),
        LineEnd::ZeroByte => without_last(line, 0),
    }
}

/// Returns what follows the prefix in a text, if the text begins with it.
#[inline(always)]
pub(crate) fn text_after<'l>(prefix: &str, text: &'l [u8]) -> Option<&'l [u8]> {
    if prefix.is_empty() {
        return Some(text);
    }
    text.strip_prefix(prefix.as_bytes())
}

/// Returns the bytes without a last byte, if they end with it.
#[inline(always)]
pub(crate) fn without_last(bytes: &[u8], byte: u8) -> &[u8] {
    match bytes.split_last() {
        Some((last, rest)) if *last == byte => rest,
        _ => bytes,
    }
}

/// Returns a line without the byte order mark, which only the first line of a text can have.
#[inline(always)]
pub(crate) fn after_mark(at_front: bool, line: &[u8]) -> &[u8] {
    if at_front { without_mark(line) } else { line }
}

/// Returns a text without the byte order mark at its beginning, if it has one.
fn without_mark(text: &[u8]) -> &[u8] {
    text.strip_prefix(MARK).unwrap_or(text)
}
