//! Versions as the dialects read them, written by their fields, and where and why a string is none.

use crate::proved::invalid_strings::refusals::explain;
use crate::proved::semver_parser::version::{self, Grammar, Identifier, Version};

/// Returns the fields of the version that a string spells, or `none` if it spells none.
pub fn read(text: &str) -> String {
    fields(version::read(text).unwrap())
}

/// Returns the fields of the version that a string spells in a dialect, or `none` if it spells
/// none.
pub fn read_in(text: &str, grammar: Grammar) -> String {
    let borrowed = version::read_ref_in(text.as_bytes(), grammar);
    fields(borrowed.map(|it| it.version().unwrap()))
}

/// Returns the borrowed version that a string spells, or `none` if it spells none.
pub fn read_ref(text: &str) -> String {
    let Some(it) = version::read_ref(text) else {
        return "none".into();
    };
    let (pre, build) = (it.pre(), it.build());
    format!("{} {} {} pre[{pre}] build[{build}]", it.major(), it.minor(), it.patch())
}

fn fields(version: Option<Version>) -> String {
    let Some(it) = version else {
        return "none".into();
    };
    let (pre, build) = (identifiers(&it.pre), identifiers(&it.build));
    format!("{} {} {} pre[{pre}] build[{build}]", it.major, it.minor, it.patch)
}

/// Returns identifiers with their variants, separated by spaces.
fn identifiers(identifiers: &[Identifier]) -> String {
    let shown = identifiers.iter().map(|identifier| match identifier {
        Identifier::Numeric(number) => format!("Numeric({number})"),
        Identifier::AlphaNumeric(word) => format!("AlphaNumeric({word})"),
    });
    shown.collect::<Vec<_>>().join(" ")
}

/// Returns the offset and the reason of a version's error, or that it is valid.
pub fn refused(text: &str, grammar: Grammar) -> String {
    match explain(text.as_bytes(), grammar).unwrap() {
        None => "a version".into(),
        Some(refusal) => format!("{}: {}", refusal.offset, refusal.reason.name()),
    }
}
