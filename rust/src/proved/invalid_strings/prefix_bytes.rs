// Made by tools/erase.py from crates/invalid_strings/src/prefix_bytes.rt; not edited by hand.
//! The bytes at the end of a prefix, and the byte after it.

use crate::rattle_std::prelude::*;
use crate::proved::semver_texts::white_space::is_ascii_white_space;

/// Returns the byte at an offset, if there is one.
pub fn byte_at(text: &[u8], offset: usize) -> Option<u8> {
    if offset < text.len() {
        Some(text[offset])
    } else {
        None
    }
}

/// Returns a byte by its offset from the end, or 0 before the first byte.
pub fn from_end(prefix: &[u8], offset: usize) -> u8 {
    if offset < prefix.len() {
        prefix[prefix.len() - 1 - offset]
    } else {
        0
    }
}

/// Returns whether a prefix ends in a zero without a digit before it.
pub fn ends_in_zero(prefix: &[u8]) -> bool {
    from_end(prefix, 0) == b'0' && !from_end(prefix, 1).is_ascii_digit()
}

/// Returns whether a prefix has no digit.
pub fn has_no_digit(prefix: &[u8]) -> bool {
    prefix.iter().all(|byte| !byte.is_ascii_digit())
}

/// Returns whether the byte can follow a number or an identifier in some version.
pub fn is_separator(byte: u8) -> bool {
    matches!(byte, b'.' | b'-' | b'+') || is_ascii_white_space(byte)
}
