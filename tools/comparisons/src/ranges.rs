//! The range sets of the original crate.

use semver_parser::{Comparator, Compat, Identifier, Op, Range, RangeSet};
use std::panic::{catch_unwind, resume_unwind};

/// The result of the crate for a range text.
pub enum Answer {
    Set(RangeSet),
    /// The text isn't in the crate's grammar.
    Refused,
    /// The text is in the grammar, but a number doesn't fit 64 bits.
    NumberPanic,
    /// The text is in the grammar, but a bound that is raised by one doesn't fit 64 bits.
    BoundPanic,
}

/// Parses a text with the crate.
pub fn read(text: &str, compat: Compat) -> Answer {
    match catch_unwind(|| RangeSet::parse(text, compat)) {
        Ok(Ok(set)) => Answer::Set(set),
        Ok(Err(_)) => Answer::Refused,
        Err(panic) => {
            let message = panic
                .downcast_ref::<String>()
                .map(String::as_str)
                .or_else(|| panic.downcast_ref::<&str>().copied())
                .unwrap_or_default();
            if message.contains("ParseIntError { kind: PosOverflow }") {
                Answer::NumberPanic
            } else if message.contains("attempt to add with overflow") {
                Answer::BoundPanic
            } else {
                resume_unwind(panic)
            }
        }
    }
}

impl Answer {
    /// Returns the crate's result as text.
    pub fn text(&self) -> String {
        match self {
            Answer::Set(set) => set_text(set),
            Answer::Refused => "a refusal".to_string(),
            Answer::NumberPanic => "a panic at a number".to_string(),
            Answer::BoundPanic => "a panic at a raised bound".to_string(),
        }
    }

    /// Returns the result of this repository that corresponds to it.
    pub fn here(&self) -> String {
        match self {
            Answer::Set(set) => set_text(set),
            Answer::Refused => "NotARange".to_string(),
            Answer::NumberPanic | Answer::BoundPanic => "NumberTooLarge".to_string(),
        }
    }
}

/// Returns the fields of a set, as this repository's program prints them.
fn set_text(set: &RangeSet) -> String {
    let ranges: Vec<String> = set.ranges.iter().map(|range| range_text(range, set.compat)).collect();
    format!("{:?}{}", set.compat, ranges.join(" ||"))
}

fn range_text(range: &Range, compat: Compat) -> String {
    let mode = if range.compat == compat { "" } else { " another mode" };
    let comparators: String = range.comparator_set.iter().map(comparator_text).collect();
    format!("{mode}{comparators}")
}

fn comparator_text(comparator: &Comparator) -> String {
    let op = match comparator.op {
        Op::Lt => "<",
        Op::Lte => "<=",
        Op::Gt => ">",
        Op::Gte => ">=",
        Op::Eq => "=",
    };
    let pre: Vec<String> = comparator.pre.iter().map(identifier_text).collect();
    let (major, minor, patch) = (comparator.major, comparator.minor, comparator.patch);
    format!(" {op}{major}.{minor}.{patch}[{}]", pre.join(" "))
}

fn identifier_text(identifier: &Identifier) -> String {
    match identifier {
        Identifier::Numeric(number) => format!("Numeric({number})"),
        Identifier::AlphaNumeric(word) => format!("AlphaNumeric({word})"),
    }
}
