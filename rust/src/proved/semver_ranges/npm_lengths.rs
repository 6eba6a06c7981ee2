// Made by tools/erase.py from crates/semver_ranges/src/npm_lengths.rt; not edited by hand.
//! Decides which words are too long for npm. No word of up to `MAX_SAFE_BUILD_LENGTH` bytes is, so
//! little of this is run.

use crate::rattle_std::prelude::*;
use crate::proved::semver_ranges::grammar::{Role, after_v, read_components};
use crate::proved::semver_ranges::operator::Operator;
use crate::proved::semver_ranges::partial::{Component, Components};
use crate::proved::semver_texts::dotted::{marked_len, split_at_dot};
use crate::proved::semver_texts::grammar::Grammar;
use crate::proved::semver_texts::npm_limits::{MAX_LENGTH, MAX_SAFE_BUILD_LENGTH};

/// The kind of the parts between dots.
#[derive(Clone, Copy)]
enum Kind {
    /// The numbers, or wildcards.
    Number,
    /// The identifiers of the pre-release.
    PreRelease,
    /// The identifiers of the build metadata.
    Build,
}

/// Returns whether a word isn't too long for npm. It is read again, so that nothing has to be kept
/// for words that aren't long, for speed.
#[inline(never)]
pub(crate) fn is_short_word(word: &[u8], role: Role) -> bool {
    let partial = after_v(word, Grammar::Npm);
    match read_components(partial) {
        Some((written, _)) => is_short_partial(word.len(), partial, &written, role),
        None => false,
    }
}

/// Returns whether a word with a length of `len` bytes, which ends with this partial, isn't too
/// long.
fn is_short_partial(len: usize, partial: &[u8], written: &Components<'_>, role: Role) -> bool {
    let version = partial.len() - marked_len(written.build);
    let numbers = version - marked_len(written.pre);
    if !has_short_parts(&partial[..numbers], written) {
        return false;
    }
    is_short_version(len, version, written, role)
}

/// Returns whether none of the numbers and identifiers is too long.
fn has_short_parts(numbers: &[u8], written: &Components<'_>) -> bool {
    are_short(numbers, Kind::Number)
        && are_short(written.pre, Kind::PreRelease)
        && are_short(written.build, Kind::Build)
}

/// Returns whether the version of a comparator isn't too long, if it has three numbers. For
/// node-semver it is either the whole word, or only the numbers and the pre-release; `word` and
/// `version` are their lengths.
fn is_short_version(word: usize, version: usize, written: &Components<'_>, role: Role) -> bool {
    if !states_three(written) {
        return true;
    }
    if is_taken_whole(written, role) {
        return word <= MAX_LENGTH;
    }
    version <= MAX_LENGTH
}

/// Returns whether node-semver keeps a word of three numbers with its `v` and its build metadata.
fn is_taken_whole(written: &Components<'_>, role: Role) -> bool {
    match role {
        Role::AfterOperator(operator) => !matches!(operator, Operator::Tilde | Operator::Caret),
        Role::AfterHyphen => written.pre.is_empty(),
    }
}

/// Returns whether the partial has three numbers.
fn states_three(written: &Components<'_>) -> bool {
    matches!(
        (written.major, written.minor, written.patch),
        (
            Component::Number(_),
            Some(Component::Number(_)),
            Some(Component::Number(_))
        )
    )
}

/// Returns whether none of the parts between dots is too long.
fn are_short(parts: &[u8], kind: Kind) -> bool {
    if parts.is_empty() {
        return true;
    }
    let mut rest = Some(parts);
    while let Some(bytes) = rest {
        let (part, after) = split_at_dot(bytes);
        if !is_short(part, kind) {
            return false;
        }
        rest = after;
    }
    true
}

/// Returns whether a part isn't too long.
fn is_short(part: &[u8], kind: Kind) -> bool {
    match kind {
        Kind::Number => part.len() <= MAX_LENGTH + 1,
        Kind::PreRelease => is_short_pre(part),
        Kind::Build => part.len() <= MAX_SAFE_BUILD_LENGTH,
    }
}

/// Returns whether an identifier of a pre-release isn't too long. If it consists of only digits, it
/// is a number.
fn is_short_pre(part: &[u8]) -> bool {
    let digits = leading_digits(part);
    if digits == part.len() {
        return digits <= MAX_LENGTH + 1;
    }
    digits <= MAX_LENGTH && part.len() <= digits + 1 + MAX_SAFE_BUILD_LENGTH
}

/// Returns the number of digits at the beginning of a string.
fn leading_digits(text: &[u8]) -> usize {
    text.iter().take_while(|byte| byte.is_ascii_digit()).count()
}
