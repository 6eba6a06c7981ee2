// Made by tools/erase.py from crates/semver_texts/src/white_space.rt; not edited by hand.
//! The characters that JavaScript calls white space, which npm allows around versions and between
//! comparators.

use crate::rattle_std::prelude::*;
/// Returns whether the byte is ASCII white space: U+0009 to U+000D, or a space.
#[inline(always)]
pub fn is_ascii_white_space(byte: u8) -> bool {
    matches!(byte, 9..=13 | 32)
}

/// Returns whether a non-ASCII character is white space.
#[inline(always)]
pub fn is_white_space_beyond_ascii(character: char) -> bool {
    matches!(
        character,
        '\u{a0}' | '\u{1680}' | '\u{2000}'..='\u{200a}'
            | '\u{2028}'
            | '\u{2029}'
            | '\u{202f}'
            | '\u{205f}'
            | '\u{3000}'
            | '\u{feff}'
    )
}

/// Returns the length in UTF-8 of the character at the beginning if it is white space, otherwise 0:
/// 2 for U+00A0.
#[inline(always)]
pub fn white_space_len(bytes: &[u8]) -> usize {
    match bytes {
        [9..=13 | 32, ..] => 1,
        [0xC2, 0xA0, ..] => 2,
        [0xE1, 0x9A, 0x80, ..]
        | [0xE2, 0x80, 0x80..=0x8A | 0xA8 | 0xA9 | 0xAF, ..]
        | [0xE2, 0x81, 0x9F, ..]
        | [0xE3, 0x80, 0x80, ..]
        | [0xEF, 0xBB, 0xBF, ..] => 3,
        _ => 0,
    }
}
