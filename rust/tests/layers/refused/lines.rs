//! Filters of lines.

use super::Ending;
use crate::proved::release_filter::{filter_text, LineOptions, Lines, Selection};
use crate::proved::semver_parser::{Compat, RangeError};
use crate::proved::semver_ranges::dialect::Dialect;
use crate::proved::tool_ranges::meaning::Rules;
use crate::proved::tool_ranges::version_range::VersionRange;
use crate::proved::version_sets::PreReleases;

/// Two of the lines are kept, and appended as they are.
pub fn copied_lines() -> Ending {
    let wanted = "1.2.0-rc.b\n1.9.0+build\n";
    ends(Selection::Each, LINES, wanted)
}

/// The last of the lines is the highest.
pub fn greatest_line() -> Ending {
    ends(Selection::Highest, LINES, "1.9.0+build\n")
}

/// The first of the lines is the lowest.
pub fn least_line() -> Ending {
    ends(Selection::Lowest, LINES, "1.2.0-rc.b\n")
}

/// The lines are sorted: the last has no end, and comes first.
pub fn sorted_lines() -> Ending {
    let sorted = "1.2.0-rc.b\n1.9.0+build\n";
    ends(Selection::Sorted, "1.9.0+build\n1.2.0-rc.b", sorted)
}

/// More than 20 lines, which are sorted without a buffer, too. The lowest of them is the last.
pub fn many_sorted_lines() -> Ending {
    ends(
        Selection::Sorted,
        "1.3.0\n1.3.1\n1.3.2\n1.3.3\n1.3.4\n1.3.5\n1.3.6\n1.3.7\n1.3.8\n1.3.9\n1.4.0\n1.4.1\n\
        1.4.2\n1.4.3\n1.4.4\n1.4.5\n1.4.6\n1.4.7\n1.4.8\n1.4.9\n1.2.0\n",
        "1.2.0\n1.3.0\n1.3.1\n1.3.2\n1.3.3\n1.3.4\n1.3.5\n1.3.6\n1.3.7\n1.3.8\n1.3.9\n1.4.0\n\
        1.4.1\n1.4.2\n1.4.3\n1.4.4\n1.4.5\n1.4.6\n1.4.7\n1.4.8\n1.4.9\n",
    )
}

/// A line without an end is held, and appended at the end of the text.
pub fn line_without_an_end() -> Ending {
    ends(Selection::Each, "1.2.0-rc.b", "1.2.0-rc.b")
}

/// The last line of a file is held, and appended with an end when the file ends. If it is out of
/// memory, nothing is appended.
pub fn line_of_a_file() -> Ending {
    let range = match below_two() {
        Ok(range) => range,
        Err(ending) => return ending,
    };
    let mut lines = Lines::new(range, Vec::new(), LineOptions::new());
    let mut kept = Vec::new();
    if lines.push(b"1.2.0-rc.b", &mut kept).is_err() || lines.end_file(&mut kept).is_err() {
        return Ending::refused_if(kept.is_empty() && lines.counts().lines == 0);
    }
    Ending::full_if(kept.as_slice() == "1.2.0-rc.b\n".as_bytes())
}

/// Lines that aren't kept don't allocate. Of lines without a version, the beginning of the first is
/// held.
pub fn lines_passed_over() -> Ending {
    ends(Selection::Each, "2.1.0-a\n\nx\n1.2\n2.1.0\n", "")
}

/// The lines that are filtered. Those of 2.0.0 and above are not kept.
const LINES: &str = "1.2.0-rc.b\n2.1.0-rc.a\n2.0.0\n1.9.0+build\n";

/// Returns the range `<2` of the crate in Cargo mode, with its pre-releases.
fn below_two() -> Result<VersionRange, Ending> {
    let meaning = Rules { dialect: Dialect::CrateCargo, pre_releases: PreReleases::Included };
    match VersionRange::try_parse("<2", meaning) {
        Ok(range) => Ok(range),
        Err(RangeError::OutOfMemory) => Err(Ending::Refused),
        Err(_) => Err(Ending::Wrong),
    }
}

/// Returns how filtering the lines of a text by `<2`, with its pre-releases, ends if its output has
/// to be this. If it is out of memory, a prefix of the output was appended, and the counts are
/// those of the lines before.
fn ends(wanted: Selection, text: &str, appended: &str) -> Ending {
    let range = match below_two() {
        Ok(range) => range,
        Err(ending) => return ending,
    };
    let mut options = LineOptions::new();
    options.selection = wanted;
    let mut lines = Lines::new(range, Vec::new(), options);
    let mut kept = Vec::new();
    if lines.push(text.as_bytes(), &mut kept).is_err() || lines.finish(&mut kept).is_err() {
        let are_counted = match wanted {
            Selection::Each => lines.counts().kept == count_of_ends(kept.as_slice()),
            _ => kept.is_empty(),
        };
        let are_first = appended.as_bytes().starts_with(kept.as_slice());
        return Ending::refused_if(are_counted && are_first);
    }
    Ending::full_if(kept.as_slice() == appended.as_bytes())
}

/// Returns how many lines have an end.
fn count_of_ends(lines: &[u8]) -> u64 {
    let mut count = 0u64;
    for byte in lines {
        if *byte == b'\n' {
            count = count.saturating_add(1);
        }
    }
    count
}

/// Invalid strings give an error without a request, whatever the list is.
pub fn refused_texts() -> Ending {
    let not_a_range = filter_text("|", Compat::Npm, &[]);
    let too_large = filter_text("<=18446744073709551615", Compat::Cargo, &[]);
    Ending::full_if(
        matches!(not_a_range, Err(RangeError::NotARange))
            && matches!(too_large, Err(RangeError::NumberTooLarge)),
    )
}
