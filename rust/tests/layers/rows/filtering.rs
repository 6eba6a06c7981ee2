//! The versions that a range contains, and the lines that a filter keeps.

use super::{versions_of, NOT_ALL};
use crate::proved::release_filter::{LineOptions, Lines, Selection};
use crate::proved::semver_parser::RangeError;
use crate::proved::semver_ranges::dialect::Dialect;
use crate::proved::tool_ranges::highest::Extreme;
use crate::proved::tool_ranges::meaning::Rules;
use crate::proved::tool_ranges::version_range::VersionRange;
use crate::proved::version_sets::PreReleases;

/// Returns the versions of a list that a range contains, or the error of the range. If it contains
/// other ones when they are given as strings, that follows.
pub fn kept(text: &str, meaning: Rules, list: &str) -> String {
    let Some(versions) = versions_of(list) else {
        return NOT_ALL.into();
    };
    let range = match VersionRange::try_parse(text, meaning) {
        Ok(range) => range,
        Err(error) => return error.to_string(),
    };
    let (mut shown, mut are_same) = (String::new(), true);
    for (version, item) in versions.iter().zip(list.split(' ').filter(|it| !it.is_empty())) {
        let is_kept = range.contains_version(version);
        if is_kept {
            shown += &format!("{version} ");
        }
        are_same &= range.try_contains_bytes(item.as_bytes()) == Ok(is_kept);
    }
    shown + if are_same { "end" } else { "end, and others by their texts" }
}

/// Returns the highest of the versions that a range in npm mode contains, if there is one.
pub fn highest(text: &str, pre_releases: PreReleases, list: &str) -> String {
    let Some(versions) = versions_of(list) else {
        return NOT_ALL.into();
    };
    let meaning = Rules { dialect: Dialect::CrateNpm, pre_releases };
    let range = match VersionRange::try_parse(text, meaning) {
        Ok(range) => range,
        Err(error) => return error.to_string(),
    };
    let items = list.split(' ').filter(|it| !it.is_empty());
    let texts: Vec<&[u8]> = items.map(str::as_bytes).collect();
    let highest = range.extreme_index(Extreme::Highest, &texts);
    highest.map_or("none".into(), |index| versions[index].to_string())
}

/// Returns the line of the highest version after a prefix, and how many bytes are left.
pub fn highest_line(text: &str, prefix: &str, lines: &str) -> String {
    let mut chosen = match lines_of(text, prefix, Selection::Highest) {
        Ok(chosen) => chosen,
        Err(error) => return error.to_string(),
    };
    let (line, left) = appended(&mut chosen, lines, lines.len());
    let shown = if line.is_empty() {
        "none".into()
    } else {
        format!("{:?}", std::str::from_utf8(&line).ok())
    };
    format!("{shown}, {left} left{}", in_bytes(&mut chosen, lines, &line))
}

/// Returns whether a line is kept, the kept lines, and how many bytes are left.
pub fn copied(text: &str, prefix: &str, lines: &str) -> String {
    let mut chosen = match lines_of(text, prefix, Selection::Each) {
        Ok(chosen) => chosen,
        Err(error) => return error.to_string(),
    };
    let (kept, left) = appended(&mut chosen, lines, lines.len());
    let (is_kept, shown) = (!kept.is_empty(), std::str::from_utf8(&kept).ok());
    format!("{is_kept} {shown:?}, {left} left{}", in_bytes(&mut chosen, lines, &kept))
}

/// Returns a filter of lines for a range in npm mode by the default rule, after a prefix if there
/// is one.
fn lines_of(text: &str, prefix: &str, selection: Selection) -> Result<Lines, RangeError> {
    let (dialect, pre_releases) = (Dialect::CrateNpm, PreReleases::ByDialect);
    let range = VersionRange::try_parse(text, Rules { dialect, pre_releases })?;
    let prefixes = if prefix.is_empty() { vec![] } else { vec![prefix.to_string()] };
    Ok(Lines::new(range, prefixes, LineOptions { selection, ..LineOptions::new() }))
}

/// Returns what a text appends in pieces of a given length, and how many of its bytes are not
/// taken.
fn appended(lines: &mut Lines, text: &str, length: usize) -> (Vec<u8>, usize) {
    let (mut kept, mut left) = (Vec::new(), text.as_bytes());
    while !left.is_empty() {
        let (piece, rest) = left.split_at(length.min(left.len()));
        if lines.push(piece, &mut kept).is_err() {
            return (kept, left.len());
        }
        left = rest;
    }
    lines.finish(&mut kept).unwrap();
    (kept, 0)
}

/// Returns a remark if a text appends something different in pieces of one byte.
fn in_bytes(lines: &mut Lines, text: &str, kept: &[u8]) -> &'static str {
    let is_same = appended(lines, text, 1) == (kept.to_vec(), 0);
    if is_same {
        ""
    } else {
        ", and something else in bytes"
    }
}
