// Made by tools/erase.py from crates/repaired_strings/src/spans.rt; not edited by hand.
//! The part of a string that an error is about.

use crate::rattle_std::prelude::*;
use crate::proved::invalid_strings::prefix_bytes::byte_at;
use crate::proved::invalid_strings::reasons::Reason;
use crate::proved::range_terms::term::Span;
use crate::proved::semver_texts::white_space::is_ascii_white_space;

/// Returns whether the byte is a character of an operator.
fn is_sign(byte: u8) -> bool {
    matches!(byte, b'<' | b'>' | b'=' | b'~' | b'^' | b'!' | b'|' | b'&')
}

/// Returns whether two bytes are of the same kind: digits, letters, characters of operators, white
/// space, or bytes of characters beyond ASCII. Any other byte is of a kind of its own.
fn is_of_same_kind(byte: u8, other: u8) -> bool {
    if byte.is_ascii_digit() {
        other.is_ascii_digit()
    } else if byte.is_ascii_alphabetic() {
        other.is_ascii_alphabetic()
    } else if is_sign(byte) {
        is_sign(other)
    } else if is_ascii_white_space(byte) {
        is_ascii_white_space(other)
    } else if byte >= 128 {
        other >= 128
    } else {
        other == byte
    }
}

/// Returns the run of bytes of the same kind as a byte, around an offset.
fn run_around(bytes: &[u8], offset: usize, byte: u8) -> Span {
    Span {
        start: run_start(bytes, offset, byte),
        end: run_end(bytes, offset, byte),
    }
}

/// Returns where the bytes of the same kind before an offset begin.
fn run_start(bytes: &[u8], offset: usize, byte: u8) -> usize {
    let mut start = offset;
    while start > 0 && is_of_same_kind(byte, bytes[start - 1]) {
        start -= 1;
    }
    start
}

/// Returns where the bytes of the same kind from an offset on end.
fn run_end(bytes: &[u8], offset: usize, byte: u8) -> usize {
    for at in offset..bytes.len() {
        if !is_of_same_kind(byte, bytes[at]) {
            return at;
        }
    }
    bytes.len()
}

/// Returns whether a digit is right before or at an offset.
fn touches_digit(bytes: &[u8], offset: usize) -> bool {
    if offset > 0 && bytes[offset - 1].is_ascii_digit() {
        return true;
    }
    offset < bytes.len() && bytes[offset].is_ascii_digit()
}

/// Returns a byte of the kind that an error at an offset is about: a digit for a leading zero,
/// otherwise the byte at the offset, if there is one.
fn kind_at(bytes: &[u8], offset: usize, reason: Reason) -> Option<u8> {
    match reason {
        Reason::LeadingZero if touches_digit(bytes, offset) => Some(b'0'),
        _ => byte_at(bytes, offset),
    }
}

/// Returns the part of a string that an error at an offset is about.
pub(crate) fn span_at(text: &str, offset: usize, reason: Reason) -> Span {
    let bytes = text.as_bytes();
    match kind_at(bytes, offset, reason) {
        Some(byte) => run_around(bytes, offset, byte),
        None => Span {
            start: offset,
            end: offset,
        },
    }
}
