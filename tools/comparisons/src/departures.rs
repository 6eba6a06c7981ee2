//! Undoes the known departures of the original crate: turns the crate's result into the expected
//! one.
//!
//! Three departures are undone in the crate's result: the lexer's error that is returned again, a
//! comma, and the panics at numbers. The other departures in ranges are errors, or results in which
//! a build looks like a pre-release, so they are undone in the text. After three components the
//! build is removed. Each part of a pre-release that begins with a digit and isn't a canonical
//! decimal gets letters in front, since the crate then keeps it as a text. In the result for that
//! text, such a part is replaced by what the rule in rust/docs/CRATE.md says.

use crate::cases::{Case, Kind};
use crate::exact;
use crate::ranges::{self, Answer};
use crate::real::{self, ERROR_AGAIN};
use semver_parser::{Compat, Identifier, RangeSet};

const AGAIN: &str = "the lexer's error is given again";
const COMMA: &str = "a comma after a simple is taken";
const BUILD_ALONE: &str = "a build that stands alone is kept as the pre-release";
const PRE_AND_BUILD: &str = "a pre-release and a build together are refused";
const DIGIT_FIRST: &str = "a part that begins with a digit and is no canonical decimal is refused";
const NUMBER: &str = "a panic at a number past 64 bits";
const BOUND: &str = "a panic at a raised bound past 64 bits";

/// The characters between the words of a range text.
const SEPARATORS: [char; 3] = [' ', '\t', '|'];

/// The expected result, and the departures because of which it isn't the crate's.
pub struct Expected {
    pub answer: String,
    pub departures: Vec<&'static str>,
}

/// Returns the expected result for a case.
pub fn expected(case: &Case) -> Expected {
    match case.kind {
        Kind::Cargo => range(&case.text, Compat::Cargo),
        Kind::Npm => range(&case.text, Compat::Npm),
        Kind::CargoExact => exact(&case.text, Compat::Cargo),
        Kind::NpmExact => exact(&case.text, Compat::Npm),
        Kind::Tokens | Kind::Steps | Kind::Versions => without_repeats(&real::answer(case)),
    }
}

/// Keeps the error once, and nothing after it.
fn without_repeats(answer: &str) -> Expected {
    match answer.strip_suffix(ERROR_AGAIN) {
        Some(items) => Expected { answer: format!("{items}end"), departures: vec![AGAIN] },
        None => Expected { answer: answer.to_string(), departures: Vec::new() },
    }
}

/// Returns what the set with exact bounds has to print, from the result with the bounds as they
/// are.
fn exact(text: &str, compat: Compat) -> Expected {
    let Expected { answer, departures } = range(text, compat);
    Expected { answer: exact::printed(text, &answer), departures }
}

/// Returns the expected result for a range text.
fn range(text: &str, compat: Compat) -> Expected {
    let answered = ranges::read(text, compat);
    if text.contains(',') {
        return with_comma(text, compat, &answered);
    }
    let undone = undone(text);
    let mut answer = ranges::read(&undone.text, compat);
    let mut departures = if answered.text() == answer.text() { Vec::new() } else { undone.departures };
    match &mut answer {
        Answer::Set(set) => unmark(set, &undone.mark),
        Answer::NumberPanic => departures.push(NUMBER),
        Answer::BoundPanic => departures.push(BOUND),
        Answer::Refused => {}
    }
    Expected { answer: answer.here(), departures }
}

/// Returns the expected result for a text with a comma, which is never a range. If the crate
/// accepts the comma, it ignores it: its result is the one for the text without commas.
fn with_comma(text: &str, compat: Compat, answered: &Answer) -> Expected {
    if matches!(answered, Answer::Refused) {
        return Expected { answer: answered.here(), departures: Vec::new() };
    }
    let is_passed_over = answered.text() == ranges::read(&text.replace(',', ""), compat).text();
    let answer = if is_passed_over { "NotARange" } else { "NotARange, of a comma that the crate passes over" };
    Expected { answer: answer.to_string(), departures: vec![COMMA] }
}

/// A text without the departures that its parts could show.
struct Undone {
    text: String,
    /// What marks a part, and is nowhere else in the text. Empty if no part is marked.
    mark: String,
    departures: Vec<&'static str>,
}

fn undone(text: &str) -> Undone {
    let longest = text.split(|c| c != 'm').map(str::len).max().unwrap_or_default();
    let mark = "m".repeat(longest + 1);
    let mut undone = Undone { text: String::new(), mark: String::new(), departures: Vec::new() };
    for piece in text.split_inclusive(SEPARATORS) {
        let word = piece.trim_end_matches(SEPARATORS);
        undone.push_word(word, &mark);
        undone.text.push_str(&piece[word.len()..]);
    }
    undone.departures.sort_unstable();
    undone.departures.dedup();
    undone
}

impl Undone {
    /// Adds a word. It is left as it is if its qualifier isn't in the grammar, or isn't after three
    /// components.
    fn push_word(&mut self, word: &str, mark: &str) {
        let at = word.find(['-', '+']).unwrap_or(word.len());
        let (numbers, qualifier) = word.split_at(at);
        let (pre, build) = match qualifier.split_once('+') {
            Some((pre, build)) => (pre, Some(build)),
            None => (qualifier, None),
        };
        let pre_is_well = pre.strip_prefix('-').map_or(true, are_parts);
        if numbers.matches('.').count() != 2 || !pre_is_well || !build.map_or(true, are_parts) {
            self.text.push_str(word);
            return;
        }
        if build.is_some() {
            self.departures.push(if pre.is_empty() { BUILD_ALONE } else { PRE_AND_BUILD });
        }
        self.text.push_str(numbers);
        self.push_pre(pre, mark);
    }

    /// Adds a pre-release with its sign, and marks the parts that the crate would reject.
    fn push_pre(&mut self, pre: &str, mark: &str) {
        let parts = match pre.strip_prefix('-') {
            Some(parts) => parts,
            None => return,
        };
        let mut sign = '-';
        for part in parts.split('.') {
            self.text.push(sign);
            sign = '.';
            if part.starts_with(|c: char| c.is_ascii_digit()) && !is_canonical(part) {
                self.mark = mark.to_string();
                self.departures.push(DIGIT_FIRST);
                self.text.push_str(mark);
            }
            self.text.push_str(part);
        }
    }
}

fn are_parts(text: &str) -> bool {
    text.split('.').all(|part| !part.is_empty() && part.bytes().all(|b| b.is_ascii_alphanumeric() || b == b'-'))
}

fn is_canonical(part: &str) -> bool {
    part.bytes().all(|b| b.is_ascii_digit()) && (part == "0" || !part.starts_with('0'))
}

/// Replaces each marked part by what its rule says: a number if it has only digits and its value is
/// below 2^64, otherwise its text.
fn unmark(set: &mut RangeSet, mark: &str) {
    if mark.is_empty() {
        return;
    }
    let comparators = set.ranges.iter_mut().flat_map(|range| &mut range.comparator_set);
    for identifier in comparators.flat_map(|comparator| &mut comparator.pre) {
        let part = match identifier {
            Identifier::AlphaNumeric(text) => text.strip_prefix(mark),
            Identifier::Numeric(_) => None,
        };
        if let Some(part) = part {
            *identifier = kept(part);
        }
    }
}

fn kept(part: &str) -> Identifier {
    match part.parse::<u64>() {
        Ok(number) if part.bytes().all(|b| b.is_ascii_digit()) => Identifier::Numeric(number),
        _ => Identifier::AlphaNumeric(part.to_string()),
    }
}
