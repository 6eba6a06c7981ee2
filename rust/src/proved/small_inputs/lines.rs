// Made by tools/erase.py from crates/small_inputs/src/lines.rt; not edited by hand.
//! Filters of lines.
#![cfg(feature = "std")]

use crate::rattle_std::prelude::*;
use crate::proved::small_inputs::checksum::Checksum;
use crate::proved::release_filter::{LineEnd, LineOptions, Lines, LinesError, Selection};
use crate::proved::semver_ranges::dialect::Dialect;
use crate::rattle_std::io;
use crate::rattle_std::io::Write;
use crate::proved::tool_ranges::meaning::Rules;
use crate::proved::tool_ranges::version_range::VersionRange;
use crate::proved::version_sets::PreReleases;

const SELECTIONS: [Selection; 5] = [
    Selection::Each,
    Selection::Highest,
    Selection::Lowest,
    Selection::Sorted,
    Selection::Reversed,
];

const ENDINGS: [LineEnd; 2] = [LineEnd::LineFeed, LineEnd::ZeroByte];

/// Filters lines with each selection and each kind of line, strictly and not.
pub fn add_lines(bytes: &[u8], sum: &mut Checksum) -> io::Result<()> {
    for selection in SELECTIONS {
        for ending in ENDINGS {
            for is_strict in [false, true] {
                let options = LineOptions {
                    selection,
                    ending,
                    strips_prefix: is_strict,
                    is_strict,
                };
                add_filtered(bytes, options, sum)?;
            }
        }
    }
    Ok(())
}

/// Filters lines, which are pushed in two pieces, and then the same lines as a second file.
fn add_filtered(
    bytes: &[u8],
    options: LineOptions,
    sum: &mut Checksum,
) -> io::Result<()> {
    let meaning = Rules {
        dialect: Dialect::Npm,
        pre_releases: PreReleases::ByDialect,
    };
    let Ok(range) = VersionRange::try_parse("^1.2.3-a", meaning) else {
        return Ok(());
    };
    let mut prefixes = Vec::new();
    prefixes.fallible_push(String::fallible_from_str("v")?)?;
    let mut lines = Lines::new(range, prefixes, options);
    let mut kept = Vec::new();
    match pushed(&mut lines, bytes, &mut kept) {
        Ok(()) => sum.add(1),
        Err(error) => write!(sum, "{error};")?,
    }
    sum.add_bytes(kept.as_slice());
    let counts = lines.counts();
    sum.add(counts.lines);
    sum.add(counts.kept);
    sum.add(counts.empty);
    sum.add(counts.invalid);
    if let Some(invalid) = counts.first_invalid.as_ref() {
        sum.add(invalid.number);
        sum.add_bytes(invalid.front.as_slice());
    }
    Ok(())
}

fn pushed(
    lines: &mut Lines,
    bytes: &[u8],
    kept: &mut Vec<u8>,
) -> Result<(), LinesError> {
    let (first, second) = bytes.split_at(bytes.len() / 2);
    lines.push(first, kept)?;
    lines.push(second, kept)?;
    lines.end_file(kept)?;
    lines.push(bytes, kept)?;
    lines.finish(kept)
}
