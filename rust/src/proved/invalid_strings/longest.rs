// Made by tools/erase.py from crates/invalid_strings/src/longest.rt; not edited by hand.
//! Finds the end of the longest prefix of a string with which some string of a language begins, by
//! trying whether a completion makes a prefix a string of the language.

use crate::rattle_std::prelude::*;
use crate::proved::invalid_strings::buffers::{complete, join};
use crate::rattle_std::AllocError;

/// How often the search tries only the likely completions.
const ROUNDS: usize = 4;

/// A language: the strings that belong to it, and the completions of their prefixes.
pub trait Language {
    /// Returns whether a string belongs to the language.
    fn contains(&self, text: &str) -> bool;

    /// Returns the completions of its prefixes.
    fn all_completions(&self) -> &[&str];

    /// Returns the index of the completion that a prefix most likely needs. The index affects only
    /// how long a search takes, not what it finds.
    fn likely(&self, prefix: &str) -> usize;
}

/// Returns the end of the longest prefix of a string with which some string of a language begins.
/// It is the length of the string if the string itself belongs to the language. For npm's versions,
/// `1.2.x` gives 4, since `1.2.0` begins with its first 4 bytes.
///
/// For a string of n bytes it tries the likely completion of log n prefixes, and then all
/// completions of the next prefix. Seldom it tries all completions of log n prefixes.
///
/// # Errors
///
/// `AllocError` if the allocation of a buffer of n + 8 bytes fails.
pub(crate) fn longest_prefix<L: Language>(
    language: &L,
    text: &str,
) -> Result<usize, AllocError> {
    let mut buffer = String::fallible_with_capacity(text.len().saturating_add(8))?;
    Ok(longest_prefix_in(language, text, &mut buffer))
}

/// Returns the result of [`longest_prefix`], using a buffer with a capacity of the length of the
/// string plus 8 bytes.
pub(crate) fn longest_prefix_in<L: Language>(language: &L, text: &str, buffer: &mut String) -> usize {
    let mut good = 0;
    'rounds: for _ in 0..ROUNDS {
        good = likely_prefix(language, text, good, buffer);
        if good == text.len() {
            return good;
        }
        let next = after(text, good);
        if !is_prefix(language, &text[..next], buffer) {
            return good;
        }
        good = next;
    }
    longest_from(language, text, good, buffer)
}

/// Returns the end of a prefix with which some string of the language begins, at or after the end
/// of such a prefix. It is mostly the longest one.
fn likely_prefix<L: Language>(language: &L, text: &str, prefix: usize, buffer: &mut String) -> usize {
    let mut good = prefix;
    let mut end = text.len();
    loop {
        let middle = between(text, good, end);
        if middle == good {
            return good;
        }
        if is_likely(language, &text[..middle], buffer) {
            good = middle;
        } else {
            end = middle;
        }
    }
}

/// Returns the end of the longest prefix, at or after the end of a prefix with which some string of
/// the language begins.
fn longest_from<L: Language>(language: &L, text: &str, prefix: usize, buffer: &mut String) -> usize {
    if is_prefix(language, text, buffer) {
        return text.len();
    }
    let mut good = prefix;
    let mut bad = text.len();
    loop {
        let middle = between(text, good, bad);
        if middle == good {
            return good;
        }
        if is_prefix(language, &text[..middle], buffer) {
            good = middle;
        } else {
            bad = middle;
        }
    }
}

/// Returns the longest prefix of the bytes that is UTF-8.
pub(crate) fn text_prefix(bytes: &[u8]) -> &str {
    match crate::rattle_std::str::from_utf8(bytes) {
        Ok(text) => text,
        Err(error) => match crate::rattle_std::str::from_utf8(&bytes[..error.valid_up_to()]) {
            Ok(text) => text,
            Err(_) => "",
        },
    }
}

/// Returns the next offset between two characters.
fn after(text: &str, offset: usize) -> usize {
    for at in offset + 1..text.len() {
        if text.is_char_boundary(at) {
            return at;
        }
    }
    text.len()
}

/// Returns an offset between two characters, after `good`, before `bad`, and near the middle, or
/// `good` if there is none.
fn between(text: &str, good: usize, bad: usize) -> usize {
    let middle = good + (bad - good) / 2;
    for at in middle..bad {
        if at > good && text.is_char_boundary(at) {
            return at;
        }
    }
    for at in good..middle {
        if at > good && text.is_char_boundary(at) {
            return at;
        }
    }
    good
}

/// Returns whether a prefix with its likely completion belongs to the language.
fn is_likely<L: Language>(language: &L, prefix: &str, buffer: &mut String) -> bool {
    let completions = language.all_completions();
    let completion = completions[language.likely(prefix)];
    join(buffer, prefix, completion);
    language.contains(buffer.as_str())
}

/// Returns whether a prefix with one of the completions belongs to the language.
fn is_prefix<L: Language>(language: &L, prefix: &str, buffer: &mut String) -> bool {
    join(buffer, prefix, "");
    for completion in language.all_completions() {
        complete(buffer, prefix, completion);
        if language.contains(buffer.as_str()) {
            return true;
        }
    }
    false
}
