// Made by tools/erase.py from crates/semver_ranges/src/grammar.rt; not edited by hand.
//! Reads what is at the beginning of a range string: a term, or the right side of a hyphen range.
//!
//! Nothing here allocates, and a call looks at each byte a fixed number of times. What can't be
//! read is `None`.

use crate::rattle_std::prelude::*;
use crate::proved::semver_ranges::cargo::{has_wildcard, named};
use crate::proved::semver_ranges::npm_lengths::is_short_word;
use crate::proved::semver_ranges::operator::Operator;
use crate::proved::semver_ranges::partial::{Component, Components, Partial};
use crate::proved::semver_ranges::term::{RawTerm, RawVersion};
use crate::proved::semver_texts::decimals;
use crate::proved::semver_texts::dotted::{Hyphens, have_no_leading_zeros, marked_part, strip_mark};
use crate::proved::semver_texts::grammar::Grammar;
use crate::proved::semver_texts::npm_limits::MAX_SAFE_BUILD_LENGTH;
use crate::proved::semver_texts::white_space::is_ascii_white_space;

/// What a word, which is a partial and its `v`, comes after.
#[derive(Clone, Copy)]
pub(crate) enum Role {
    /// The operator of a term as it is written. For the left side of a hyphen range, none.
    AfterOperator(Operator),
    /// The hyphen of a hyphen range.
    AfterHyphen,
}

/// A partial and its operator.
#[derive(Clone, Copy, Debug)]
pub struct Simple<'input> {
    /// The operator.
    pub operator: Operator,
    /// The partial.
    pub partial: Partial<'input>,
}

impl<'input> Simple<'input> {
    /// Returns a term with the operator that a grammar reads. In Cargo's, none means `^`, or `=` if
    /// there is a wildcard.
    #[inline(always)]
    pub(crate) fn of(operator: Operator, written: &Components<'input>, grammar: Grammar) -> Simple<'input> {
        let operator = match grammar {
            Grammar::Cargo => named(operator, has_wildcard(written)),
            Grammar::Crate | Grammar::Npm => operator,
        };
        Simple {
            operator,
            partial: Partial::of(written),
        }
    }

    /// Returns a bare wildcard.
    #[inline(always)]
    pub(crate) fn wildcard() -> Simple<'input> {
        let written = Components {
            major: Component::Wildcard(b'*'),
            minor: None,
            patch: None,
            pre: &[],
            build: &[],
        };
        Simple {
            operator: Operator::Bare,
            partial: Partial::of(&written),
        }
    }
}

/// Returns the right side of a hyphen range, which follows the hyphen and ends with the range, and
/// what follows it.
#[inline(always)]
pub(crate) fn read_right_side(after: &[u8], grammar: Grammar) -> Option<(RawVersion<'_>, &[u8])> {
    let text = after_blank(after, grammar)?;
    let text = after_blanks(text, grammar);
    let right = read_version(text, grammar, Role::AfterHyphen)?;
    let rest = after_blanks(right.after, grammar);
    if ends_range(rest) {
        Some((right, rest))
    } else {
        None
    }
}

/// Returns the term at the beginning of a string, and what follows it and the blanks after it. It
/// returns `None` if there is no term. It doesn't look for the right side of a hyphen range.
#[inline(always)]
pub(crate) fn read_term(text: &[u8], grammar: Grammar) -> Option<(RawTerm<'_>, &[u8])> {
    let (operator, word) = read_operator(text, grammar);
    let version = read_version(word, grammar, Role::AfterOperator(operator))?;
    let term = RawTerm {
        from: text,
        operator,
        version,
        upper: None,
    };
    Some((term, after_blanks(version.after, grammar)))
}

/// Returns the operator at the beginning of a string, and what follows it and its blanks.
#[inline(always)]
fn read_operator(text: &[u8], grammar: Grammar) -> (Operator, &[u8]) {
    let (operator, rest) = match text {
        [b'^', rest @ ..] => (Operator::Caret, rest),
        [b'>', b'=', rest @ ..] => (Operator::GreaterOrEqual, rest),
        [b'>', rest @ ..] => (Operator::Greater, rest),
        [b'<', b'=', rest @ ..] => (Operator::LessOrEqual, rest),
        [b'<', rest @ ..] => (Operator::Less, rest),
        [b'~', b'>', rest @ ..] => (Operator::Tilde, rest),
        [b'~', rest @ ..] => (Operator::Tilde, rest),
        [b'=', rest @ ..] => (Operator::Equal, rest),
        _ => return (Operator::Bare, text),
    };
    (operator, after_blanks(rest, grammar))
}

/// Returns the version at the beginning of a string, which ends with its word.
#[inline(always)]
fn read_version(text: &[u8], grammar: Grammar, role: Role) -> Option<RawVersion<'_>> {
    let (components, after) = read_components(after_v(text, grammar))?;
    if ends_word(after, grammar) && takes(text, after, &components, grammar, role) {
        Some(RawVersion {
            from: text,
            after,
            components,
        })
    } else {
        None
    }
}

/// Returns what follows one `v`, which only npm allows.
#[inline(always)]
pub(crate) fn after_v(text: &[u8], grammar: Grammar) -> &[u8] {
    match (grammar, text) {
        (Grammar::Npm, [b'v', rest @ ..]) => rest,
        _ => text,
    }
}

/// Returns whether the dialect accepts the word before `rest`.
#[inline(always)]
fn takes(text: &[u8], rest: &[u8], written: &Components<'_>, grammar: Grammar, role: Role) -> bool {
    match grammar {
        Grammar::Crate | Grammar::Cargo => true,
        Grammar::Npm => has_no_leading_zeros(written) && is_short(text, rest, role),
    }
}

/// Returns whether no numeric part of the pre-release has a leading zero.
#[inline(always)]
fn has_no_leading_zeros(written: &Components<'_>) -> bool {
    have_no_leading_zeros(written.pre)
}

/// Returns whether the word before `rest` isn't too long for npm. Its length is compared with the
/// smallest limit first, for speed.
#[inline(always)]
fn is_short(text: &[u8], rest: &[u8], role: Role) -> bool {
    let len = text.len() - rest.len();
    if len <= MAX_SAFE_BUILD_LENGTH {
        return true;
    }
    is_short_word(&text[..len], role)
}

/// Returns the components of the partial at the beginning of a string, whatever follows it.
#[inline(always)]
pub(crate) fn read_components(text: &[u8]) -> Option<(Components<'_>, &[u8])> {
    let (major, rest) = read_component(text)?;
    let one = Components {
        major,
        minor: None,
        patch: None,
        pre: &[],
        build: &[],
    };
    let Some(after) = strip_mark(rest, b'.') else {
        return Some((one, rest));
    };
    let (minor, rest) = read_component(after)?;
    let two = Components {
        minor: Some(minor),
        ..one
    };
    let Some(after) = strip_mark(rest, b'.') else {
        return Some((two, rest));
    };
    let (patch, rest) = read_component(after)?;
    let (pre, build, rest) = read_qualifier(rest)?;
    let three = Components {
        patch: Some(patch),
        pre,
        build,
        ..two
    };
    Some((three, rest))
}

/// Returns the pre-release at the beginning of a string and the build metadata after it, each of
/// which may be missing, and what follows them.
#[inline(always)]
fn read_qualifier(text: &[u8]) -> Option<(&[u8], &[u8], &[u8])> {
    match text {
        [b'-' | b'+', ..] => read_pre(text),
        _ => Some((&[], &[], text)),
    }
}

/// Returns the same as `read_qualifier`, if at least one of them is there, which is seldom the
/// case.
#[inline(never)]
fn read_pre(text: &[u8]) -> Option<(&[u8], &[u8], &[u8])> {
    let (pre, rest) = marked_part(text, b'-', Hyphens::Any)?;
    let (build, rest) = marked_part(rest, b'+', Hyphens::Any)?;
    Some((pre, build, rest))
}

/// Returns the component at the beginning of a string, and what follows it.
#[inline(always)]
fn read_component(text: &[u8]) -> Option<(Component, &[u8])> {
    match text {
        [b'0', rest @ ..] => Some((Component::Number(Some(0)), rest)),
        [first, rest @ ..] if first.is_ascii_digit() => {
            let (number, rest) = read_digits(u64::from(*first - b'0'), rest);
            Some((Component::Number(number), rest))
        }
        [wildcard @ (b'x' | b'X' | b'*'), rest @ ..] => {
            Some((Component::Wildcard(*wildcard), rest))
        }
        _ => None,
    }
}

/// Returns the value of a first digit and the digits at the beginning of a string, and what follows
/// them. A single digit is read first, for speed, so the loop runs only for longer numbers.
#[inline(always)]
fn read_digits(first: u64, text: &[u8]) -> (Option<u64>, &[u8]) {
    if !decimals::begins_with_digit(text) {
        return (Some(first), text);
    }
    let mut value = Some(first);
    for at in 0..text.len() {
        let digit = text[at];
        if !digit.is_ascii_digit() {
            return (value, &text[at..]);
        }
        value = with_digit(value, digit - b'0');
    }
    (value, &text[text.len()..])
}

/// Returns the value of a number with one more digit.
#[inline(always)]
fn with_digit(value: Option<u64>, digit: u8) -> Option<u64> {
    decimals::with_digit(value?, digit)
}

/// Returns what follows the blanks at the beginning of a string.
#[inline(always)]
pub(crate) fn after_blanks(text: &[u8], grammar: Grammar) -> &[u8] {
    for at in 0..text.len() {
        if !is_blank(text[at], grammar) {
            return &text[at..];
        }
    }
    &text[text.len()..]
}

/// Returns what follows one blank, if the string begins with it.
#[inline(always)]
fn after_blank(text: &[u8], grammar: Grammar) -> Option<&[u8]> {
    match text {
        [first, rest @ ..] if is_blank(*first, grammar) => Some(rest),
        _ => None,
    }
}

/// Returns what follows two bars, if the string begins with them.
#[inline(always)]
pub(crate) fn after_bars(text: &[u8]) -> Option<&[u8]> {
    match text {
        [b'|', b'|', rest @ ..] => Some(rest),
        _ => None,
    }
}

/// Returns whether a range ends here: at the end of the string, or at a bar.
#[inline(always)]
pub(crate) fn ends_range(text: &[u8]) -> bool {
    matches!(text, [] | [b'|', ..])
}

/// Returns whether a word ends here: at the end of the string, at a blank, a bar or a comma.
#[inline(always)]
fn ends_word(text: &[u8], grammar: Grammar) -> bool {
    match text {
        [] => true,
        [first, ..] => is_blank(*first, grammar) || matches!(*first, b'|' | b','),
    }
}

/// Returns whether a byte is part of a blank.
#[inline(always)]
fn is_blank(byte: u8, grammar: Grammar) -> bool {
    match grammar {
        Grammar::Crate => byte == b' ' || byte == b'\t',
        Grammar::Cargo => byte == b' ',
        Grammar::Npm => is_white_space(byte),
    }
}

/// Returns whether a byte is part of a blank in npm's dialect. It is a separate function for speed:
/// the copies for the crate's dialect stay small.
#[inline(never)]
fn is_white_space(byte: u8) -> bool {
    is_ascii_white_space(byte) || byte >= 128
}
