// Made by tools/erase.py from crates/semver_texts/src/bytes.rt; not edited by hand.
//! Tests of bytes, and the lengths of prefixes whose bytes pass a test.

use crate::rattle_std::prelude::*;
/// Returns whether the byte is a space, a tab, a line feed or a carriage return.
#[inline(always)]
pub fn is_space(byte: u8) -> bool {
    matches!(byte, b' ' | b'\t' | b'\n' | b'\r')
}

/// Returns whether the byte is an ASCII letter, a digit or a hyphen.
#[inline(always)]
pub fn is_part_byte(byte: u8) -> bool {
    byte.is_ascii_alphanumeric() || byte == b'-'
}

/// Returns how many bytes at the beginning are white space: 2 for ` \t1`.
#[inline(always)]
pub fn space_len(bytes: &[u8]) -> usize {
    bytes.iter().take_while(|&&byte| is_space(byte)).count()
}

/// Returns how many bytes at the beginning are ASCII letters and digits: 3 for `rc1-2`.
#[inline(always)]
pub fn run_len(bytes: &[u8]) -> usize {
    bytes
        .iter()
        .take_while(|byte| byte.is_ascii_alphanumeric())
        .count()
}

/// Returns how many bytes at the beginning are ASCII letters, digits and hyphens: 5 for `rc1-2.3`.
#[inline(always)]
pub fn part_len(bytes: &[u8]) -> usize {
    bytes.iter().take_while(|&&byte| is_part_byte(byte)).count()
}

/// Returns how many of the bytes are dots: 2 for `1.2.3`.
#[inline(always)]
pub fn count_dots(bytes: &[u8]) -> usize {
    let mut count = 0;
    for at in 0..bytes.len() {
        if bytes[at] == b'.' {
            count += 1;
        }
    }
    count
}
