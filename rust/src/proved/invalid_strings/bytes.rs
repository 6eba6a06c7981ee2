// Made by tools/erase.py from crates/invalid_strings/src/bytes.rt; not edited by hand.
//! Decides whether some version begins with given bytes, which may end within a character.

use crate::rattle_std::prelude::*;
use crate::proved::invalid_strings::buffers::write;
use crate::proved::semver_texts::grammar::Grammar;
use crate::proved::semver_versions::version::{is_version_at_any_length, read_ref_in};

/// The bytes that complete a prefix.
const COMPLETIONS: [&[u8]; 23] = [
    b"",
    b"a",
    b"0",
    b".0",
    b"0.0",
    b".0.0",
    b"0.0.0",
    &[0xA0],
    &[0x9A, 0x80],
    &[0x80, 0x80],
    &[0x81, 0x9F],
    &[0xBB, 0xBF],
    &[0x80],
    &[0x9F],
    &[0xBF],
    b"\xA00.0.0",
    b"\x9A\x800.0.0",
    b"\x80\x800.0.0",
    b"\x81\x9F0.0.0",
    b"\xBB\xBF0.0.0",
    b"\x800.0.0",
    b"\x9F0.0.0",
    b"\xBF0.0.0",
];

/// The length that a version may have.
#[derive(Clone, Copy)]
pub(crate) enum Length {
    /// As long as its dialect allows.
    Allowed,
    /// Any length.
    Any,
}

/// Returns whether some version of an allowed length begins with the bytes.
pub(crate) fn begins(prefix: &[u8], len: Length, grammar: Grammar, buffer: &mut [u8]) -> bool {
    write(buffer, 0, prefix);
    goes_on(buffer, prefix.len(), &COMPLETIONS, len, grammar)
}

/// Returns whether the bytes up to an offset, with one of the completions, are a version of an
/// allowed length.
fn goes_on(
    buffer: &mut [u8],
    end: usize,
    completions: &[&[u8]],
    len: Length,
    grammar: Grammar,
) -> bool {
    for completion in completions {
        write(buffer, end, completion);
        if is_version(&buffer[..end + completion.len()], len, grammar) {
            return true;
        }
    }
    false
}

/// Returns whether the bytes are a version of an allowed length.
pub(crate) fn is_version(bytes: &[u8], len: Length, grammar: Grammar) -> bool {
    match len {
        Length::Allowed => read_ref_in(bytes, grammar).is_some(),
        Length::Any => is_version_at_any_length(bytes, grammar),
    }
}
