// Made by tools/erase.py from crates/invalid_strings/src/buffers.rt; not edited by hand.
//! Buffers in which completions are appended to prefixes.

use crate::rattle_std::prelude::*;
/// Writes bytes at an offset. The bytes before it stay as they are.
pub(crate) fn write(buffer: &mut [u8], offset: usize, bytes: &[u8]) {
    buffer[offset..offset + bytes.len()].copy_from_slice(bytes);
}

/// Replaces the content of the buffer by two strings, one after the other. It does not allocate,
/// since the buffer's capacity has to hold both.
pub(crate) fn join(buffer: &mut String, first: &str, second: &str) {
    buffer.clear();
    let _ = buffer.fallible_push_str(first);
    let _ = buffer.fallible_push_str(second);
}

/// Replaces what follows a prefix in the buffer by a completion.
pub(crate) fn complete(buffer: &mut String, prefix: &str, completion: &str) {
    buffer.truncate(prefix.len());
    let _ = buffer.fallible_push_str(completion);
}
