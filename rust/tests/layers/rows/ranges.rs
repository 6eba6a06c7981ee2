//! Ranges as Cargo or npm itself reads them.

use super::{versions_of, NOT_ALL};
use crate::proved::semver_parser::{version, RangeError};
use crate::proved::range_upgrades::upgrade::upgrade;
use crate::proved::requirements::requirement::requirement;
use crate::proved::semver_ranges::dialect::Dialect;
use crate::proved::tool_ranges::rewriting::rewrite;
use crate::proved::tool_ranges::meaning::{self, Rules};
use crate::proved::tool_ranges::version_range::VersionRange;
use crate::proved::invalid_ranges::refusals;

/// Returns the comparators of a range in a dialect, or the word for its error.
pub fn rewritten(text: &str, tool: Dialect) -> String {
    match rewrite(tool, text) {
        Ok(set) => set.to_string(),
        Err(error) => word(error),
    }
}

/// Returns the versions of a list that satisfy a range, or the word for its error. What checking
/// one version against the range says otherwise follows it.
pub fn meant(text: &str, tool: Rules, list: &str) -> String {
    let Some(versions) = versions_of(list) else {
        return NOT_ALL.into();
    };
    let set = match meaning::read(tool, text) {
        Ok(set) => set,
        Err(error) => return word(error),
    };
    let mut shown = String::from("means");
    for (version, item) in versions.iter().zip(list.split(' ')) {
        let is_meant = set.contains(version);
        if is_meant {
            shown += &format!(" {version}");
        }
        let borrowed = version::read_ref_in(item.as_bytes(), tool.dialect.grammar());
        if borrowed.map(|it| meaning::satisfies(&it, text, tool)) != Some(Ok(is_meant)) {
            shown += &format!(", but asked of {version} it says the other");
        }
    }
    shown
}

/// Returns the range raised to a version, in quotes, or why it isn't raised.
pub fn upgraded(text: &str, tool: Rules, version: &str) -> String {
    match upgrade(text, version.as_bytes(), tool) {
        Ok(Some(new)) => format!("{new:?}"),
        Ok(None) => "nothing to do".into(),
        Err(error) => error.to_string(),
    }
}

/// Returns the requirement of a range, in quotes, `none`, or the range's error.
pub fn required(text: &str, tool: Rules) -> String {
    match VersionRange::try_parse(text, tool) {
        Ok(range) => match requirement(&range).unwrap() {
            Some(requirement) => format!("{requirement:?}"),
            None => "none".into(),
        },
        Err(error) => error.to_string(),
    }
}

/// Returns the offset and the reason of a range's error, or that it is valid.
pub fn refused(text: &str, dialect: Dialect) -> String {
    match refusals::refused(dialect, text).unwrap() {
        None => "a range".into(),
        Some(it) => format!("{}: {}, {}", it.offset, it.error, it.reason.name()),
    }
}

fn word(error: RangeError) -> String {
    error.to_string().replace(' ', "-")
}
