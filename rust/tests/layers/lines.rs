//! The lines of a text that comes in pieces: cut at each offset, and in pieces of equal lengths.

use crate::proved::release_filter::{LineEnd, LineOptions, Lines, LinesError, Selection};
use crate::proved::semver_ranges::dialect::Dialect;
use crate::proved::tool_ranges::meaning::Rules;
use crate::proved::tool_ranges::version_range::VersionRange;
use crate::proved::version_sets::PreReleases;

/// The text: a byte order mark, six versions, four of which satisfy `^1.2`, an empty line, and the
/// second line, which is an invalid version.
const TEXT: &[u8] = b"\xEF\xBB\xBF1.2.0\r\nx\n1.3.0-rc\n\r\n1.9.0+b\n2.0.0\n1.9.0+a\n1.4.0";

/// The output for the text, by the selection.
const APPENDED: [(Selection, &str); 5] = [
    (Selection::Each, "1.2.0\r\n1.9.0+b\n1.9.0+a\n1.4.0"),
    (Selection::Highest, "1.9.0+b\n"),
    (Selection::Lowest, "1.2.0\r\n"),
    (Selection::Sorted, "1.2.0\r\n1.4.0\n1.9.0+b\n1.9.0+a\n"),
    (Selection::Reversed, "1.9.0+a\n1.9.0+b\n1.4.0\n1.2.0\r\n"),
];

/// Lines that are invalid versions: bytes that aren't UTF-8, a bad character, more than a version,
/// less, and a word.
const INVALID_LINES: [&[u8]; 5] = [b"1.2.\xff", b"1.2.0/", b"1.2.0 a", b"1.2.0-", b"a"];

/// The lengths of pieces. The last one is the whole text.
const LENGTHS: [usize; 5] = [1, 2, 3, 7, 64];

/// Lines with two prefixes, and the lines that `^11` keeps: the first prefix that is followed by a
/// version decides.
const PREFIXES: [(&str, &str, &str, &str); 6] = [
    ("v", "", "v11.2.0\n11.4.0\nw11.5.0\nvv11.6.0\n", "v11.2.0\n11.4.0\n"),
    ("", "v", "v11.2.0\n11.4.0\nw11.5.0\nvv11.6.0\n", "v11.2.0\n11.4.0\n"),
    ("1", "", "11.2.0\n111.2.0\n", "111.2.0\n"),
    ("", "1", "11.2.0\n111.2.0\n", "11.2.0\n"),
    ("v", "vv", "vv11.2.0\nv11.2.0", "vv11.2.0\nv11.2.0"),
    ("v", "w", "é11.2.0\nv\n11.2.0\n", ""),
];

/// Lines that end with a zero byte or are written without their prefix: what ends them, whether the
/// prefix is stripped, the selection, the prefix, a text, and the output of `^1.2` for it.
const FORMS: [(LineEnd, bool, Selection, &str, &str, &str); 9] = [
    (
        LineEnd::ZeroByte,
        false,
        Selection::Each,
        "v",
        "v1.4.0\0v1.2.0\n\0v1.9.0",
        "v1.4.0\0v1.2.0\n\0v1.9.0",
    ),
    (LineEnd::ZeroByte, true, Selection::Each, "a\nb", "a\nb1.4.0\0a\n1.4.0\0", "1.4.0\0"),
    (LineEnd::ZeroByte, false, Selection::Sorted, "v", "v1.4.0\0v1.2.0", "v1.2.0\0v1.4.0\0"),
    (LineEnd::ZeroByte, false, Selection::Lowest, "", "1.4.0\0\u{0}1.2.0\0", "1.2.0\0"),
    (LineEnd::LineFeed, false, Selection::Each, "", "1.4.0\0\n1.2.0\r\n", "1.2.0\r\n"),
    (LineEnd::LineFeed, true, Selection::Each, "v", "v1.4.0\r\n1.4.0\nv1.2.0", "1.4.0\r\n1.2.0"),
    (LineEnd::LineFeed, true, Selection::Each, "\u{FEFF}", "\u{FEFF}\u{FEFF}1.4.0\n", "1.4.0\n"),
    (LineEnd::LineFeed, true, Selection::Sorted, "v", "v1.4.0\nv1.2.0", "1.2.0\n1.4.0\n"),
    (LineEnd::LineFeed, true, Selection::Highest, "v", "v1.4.0\nv1.9.0+b\nv1.2.0", "1.9.0+b\n"),
];

/// Two files, and the output of `^1.2` for them.
const FILES: [(&str, &str, &str); 6] = [
    ("1.4.0", "1.9.0", "1.4.0\n1.9.0"),
    ("1.4.0\n", "\u{FEFF}1.9.0\n", "1.4.0\n1.9.0\n"),
    ("\u{FEFF}1.4.0", "\u{FEFF}1.9.0", "1.4.0\n1.9.0"),
    ("\u{FEFF}", "\u{FEFF}1.9.0", "1.9.0"),
    ("", "1.9.0", "1.9.0"),
    ("1.4.0", "", "1.4.0\n"),
];

/// The beginnings of long lines, the byte that is repeated after it, and whether `^1.2` keeps them.
const LONG_LINES: [(&str, u8, bool); 7] = [
    ("", b'a', false),
    ("1.2.0x", b'1', false),
    ("\u{FEFF}1.2.0_", b'a', false),
    ("", b' ', false),
    ("1.2.0+", b'a', true),
    ("1.2.0", b' ', true),
    ("1.2.0", b'\r', true),
];

/// The maximum length of the text of a line that can have a version.
const LONGEST_TEXT: usize = 1_048_576;

/// The output is the same wherever the text is cut.
pub fn cuts() {
    for (wanted, appended) in &APPENDED {
        for place in 0..=TEXT.len() {
            let (front, back) = TEXT.split_at(place);
            assert!(
                appends(*wanted, &[front, back], appended),
                "lines: wrong where the text is cut after {place} bytes"
            );
        }
        for length in LENGTHS {
            assert!(
                appends_in_pieces(*wanted, length, appended),
                "lines: wrong in pieces of {length}"
            );
        }
    }
}

/// Strict lines stop at an invalid line, whatever the lengths of the pieces are.
pub fn strict_lines() {
    for (wanted, _) in &APPENDED {
        for length in LENGTHS {
            assert!(
                stops_in_pieces(*wanted, length),
                "lines: wrong where pieces of {length} have an invalid line"
            );
        }
        assert!(stops_at_the_end(*wanted), "lines: wrong at an invalid last line");
    }
}

/// Invalid lines are skipped and counted.
pub fn invalid_lines() {
    for line in &INVALID_LINES {
        for before in ["", "\n", "1.2.0\n"] {
            for after in ["", "\n", "\n1.9.0"] {
                assert!(skips(before, line, after), "lines: wrong at {}", line.escape_ascii());
            }
        }
    }
}

/// Long lines are kept or counted. Their lengths are around 4,096 bytes, and around the maximum
/// length of a text that can have a version.
pub fn long_lines() {
    for (front, byte, is_version) in &LONG_LINES {
        for length in 4094..4100usize {
            let line = long_line(front, *byte, length);
            for place in [0, 1, 4095, 4096, 4097, length] {
                assert!(
                    takes_long(line.as_slice(), place, *is_version),
                    "lines: wrong at {length} bytes that begin with {front:?}"
                );
            }
        }
    }
    for (front, byte, is_version) in [("1.2.0+", b'a', true), ("\u{FEFF}1.2.0", b' ', true)] {
        let mark = if front.starts_with('\u{FEFF}') { 3 } else { 0 };
        for length in LONGEST_TEXT - 1..LONGEST_TEXT + 2 {
            let line = long_line(front, byte, length.saturating_add(mark));
            let is_kept = is_version && length <= LONGEST_TEXT;
            for place in [0, length - 1, length, length + 2] {
                assert!(
                    takes_long(line.as_slice(), place, is_kept),
                    "lines: wrong at {length} bytes that begin with {front:?}"
                );
            }
        }
    }
}

/// A version begins after the first prefix with which the line begins.
pub fn prefixes() {
    for (first, second, text, appended) in &PREFIXES {
        let prefixes = vec![first.to_string(), second.to_string()];
        let mut lines = Lines::new(releases("^11"), prefixes, LineOptions::new());
        let mut kept = Vec::new();
        let is_taken =
            lines.push(text.as_bytes(), &mut kept).is_ok() && lines.finish(&mut kept).is_ok();
        assert!(
            is_taken && kept == appended.as_bytes(),
            "lines: wrong with the prefixes {first:?} and {second:?}"
        );
    }
}

/// Lines in other forms have their output wherever they are cut.
pub fn forms() {
    for (ending, strips_prefix, wanted, prefix, text, appended) in &FORMS {
        let options = LineOptions {
            selection: *wanted,
            ending: *ending,
            strips_prefix: *strips_prefix,
            is_strict: false,
        };
        for place in 0..=text.len() {
            let (front, back) = text.as_bytes().split_at(place);
            let prefixes = vec![prefix.to_string()];
            let mut lines = Lines::new(releases("^1.2"), prefixes, options);
            let mut kept = Vec::new();
            let is_taken = lines.push(front, &mut kept).is_ok()
                && lines.push(back, &mut kept).is_ok()
                && lines.finish(&mut kept).is_ok();
            assert!(
                is_taken && kept == appended.as_bytes(),
                "lines: wrong where {text:?} is cut after {place} bytes"
            );
        }
    }
}

/// A file ends its last line.
pub fn files() {
    for (first, second, appended) in &FILES {
        let mut lines = lines_of("^1.2", Selection::Each, true);
        let mut kept = Vec::new();
        let is_taken = lines.push(first.as_bytes(), &mut kept).is_ok()
            && lines.end_file(&mut kept).is_ok()
            && lines.push(second.as_bytes(), &mut kept).is_ok()
            && lines.finish(&mut kept).is_ok();
        let is_counted = lines.counts().invalid == 0 && lines.counts().empty == 0;
        assert!(
            is_taken && is_counted && kept == appended.as_bytes(),
            "lines: wrong with the files {first:?} and {second:?}"
        );
    }
    assert!(stops_at_the_end_of_a_file(), "lines: wrong at an invalid last line of a file");
}

/// Returns whether strict lines stop at the last line of a file if it is an invalid version, and
/// count it.
fn stops_at_the_end_of_a_file() -> bool {
    let mut lines = lines_of("^1.2", Selection::Each, true);
    let mut kept = Vec::new();
    let has_stopped = lines.push(b"1.4.0\nx", &mut kept).is_ok()
        && matches!(lines.end_file(&mut kept), Err(LinesError::NoVersion(2)));
    let first = &lines.counts().first_invalid;
    let is_shown = first.as_ref().is_some_and(|line| line.front.as_slice() == "x".as_bytes());
    has_stopped && is_shown && kept.as_slice() == "1.4.0\n".as_bytes()
}

/// Returns whether the pieces have this output, where each kept line is appended as soon as it
/// ends.
fn appends(wanted: Selection, pieces: &[&[u8]], appended: &str) -> bool {
    let mut lines = lines_of("^1.2", wanted, false);
    let mut kept = Vec::new();
    for piece in pieces {
        if lines.push(piece, &mut kept).is_err() {
            return false;
        }
    }
    let so_far = kept.len();
    if lines.finish(&mut kept).is_err() {
        return false;
    }
    let has_last = match wanted {
        Selection::Each => so_far + "1.4.0".len() == kept.len(),
        _ => so_far == 0,
    };
    has_last && kept.as_slice() == appended.as_bytes() && are_counted(&lines)
}

/// Returns whether the lines of the text were counted.
fn are_counted(lines: &Lines) -> bool {
    let counts = lines.counts();
    counts.lines == 8
        && counts.kept == 4
        && counts.empty == 1
        && counts.invalid == 1
        && counts
            .first_invalid
            .as_ref()
            .is_some_and(|line| line.number == 2 && line.front.as_slice() == "x".as_bytes())
}

/// Returns whether pieces of this length have this output.
fn appends_in_pieces(wanted: Selection, length: usize, appended: &str) -> bool {
    let mut pieces = Vec::new();
    let mut rest = TEXT;
    for _ in 0..TEXT.len() {
        if rest.is_empty() {
            break;
        }
        let (piece, others) = rest.split_at(length.min(rest.len()));
        pieces.push(piece);
        rest = others;
    }
    appends(wanted, pieces.as_slice(), appended)
}

/// Returns whether strict lines stop at the second line, with the output of the first, and both
/// counted.
fn stops_in_pieces(wanted: Selection, length: usize) -> bool {
    let mut lines = lines_of("^1.2", wanted, true);
    let mut kept = Vec::new();
    let mut rest = TEXT;
    for _ in 0..TEXT.len() {
        let (piece, others) = rest.split_at(length.min(rest.len()));
        rest = others;
        match lines.push(piece, &mut kept) {
            Ok(()) => {}
            Err(error) => return has_stopped(&lines, wanted, &error, &kept),
        }
    }
    false
}

/// Returns whether this is the state after the second line.
fn has_stopped(lines: &Lines, wanted: Selection, error: &LinesError, kept: &[u8]) -> bool {
    let appended = match wanted {
        Selection::Each => "1.2.0\r\n",
        _ => "",
    };
    let counts = lines.counts();
    matches!(error, LinesError::NoVersion(2))
        && kept == appended.as_bytes()
        && (counts.lines, counts.kept, counts.invalid) == (2, 1, 1)
        && counts.first_invalid.as_ref().is_some_and(|line| line.number == 2)
}

/// Returns whether strict lines stop at a last line that is an invalid version, append nothing, and
/// count it.
fn stops_at_the_end(wanted: Selection) -> bool {
    let mut lines = lines_of("^1.2", wanted, true);
    let mut kept = Vec::new();
    let has_stopped = lines.push(b"2.0.0\n\nx", &mut kept).is_ok()
        && matches!(lines.finish(&mut kept), Err(LinesError::NoVersion(3)));
    let counts = lines.counts();
    has_stopped && kept.is_empty() && (counts.lines, counts.invalid) == (3, 1)
}

/// Returns whether a line is skipped and counted, and the lines before and after it are appended.
fn skips(before: &str, line: &[u8], after: &str) -> bool {
    let mut lines = lines_of("^1.2", Selection::Each, false);
    let mut kept = Vec::new();
    let mut wanted = Vec::new();
    wanted.extend_from_slice(before.trim_start().as_bytes());
    wanted.extend_from_slice(after.trim_start().as_bytes());
    for piece in [before.as_bytes(), line, after.as_bytes()] {
        if lines.push(piece, &mut kept).is_err() {
            return false;
        }
    }
    let has_ended = lines.finish(&mut kept).is_ok();
    let number = if before.is_empty() { 1 } else { 2 };
    let counts = lines.counts();
    let is_counted = counts.invalid == 1
        && counts
            .first_invalid
            .as_ref()
            .is_some_and(|first| first.number == number && first.front.as_slice() == line);
    has_ended && is_counted && kept == wanted
}

/// Returns a line of this length that begins with `front` and then repeats a byte.
fn long_line(front: &str, byte: u8, length: usize) -> Vec<u8> {
    let mut line = Vec::new();
    line.extend_from_slice(front.as_bytes());
    for _ in line.len()..length {
        line.push(byte);
    }
    line
}

/// Returns whether a long line that is cut at an offset is kept, or otherwise counted, and the line
/// after it is kept.
fn takes_long(line: &[u8], place: usize, is_kept: bool) -> bool {
    let mut lines = lines_of("^1.2", Selection::Each, false);
    let mut kept = Vec::new();
    let mut wanted = Vec::new();
    let text = line.strip_prefix(b"\xEF\xBB\xBF".as_slice()).unwrap_or(line);
    if is_kept {
        wanted.extend_from_slice(text);
        wanted.extend_from_slice(b"\n");
    }
    wanted.extend_from_slice(b"1.9.0");
    let (front, back) = line.split_at(place.min(line.len()));
    for piece in [front, back, b"", b"\n", b"1.9.0"] {
        if lines.push(piece, &mut kept).is_err() {
            return false;
        }
    }
    let has_ended = lines.finish(&mut kept).is_ok();
    let shown = text.get(..81).unwrap_or_default();
    let is_counted = match &lines.counts().first_invalid {
        Some(first) => !is_kept && first.number == 1 && first.front.as_slice() == shown,
        None => is_kept,
    };
    has_ended && is_counted && kept == wanted
}

/// Returns the lines of a text that a filter keeps, releases only, without a prefix.
fn lines_of(range: &str, wanted: Selection, is_strict: bool) -> Lines {
    let range = releases(range);
    let mut options = LineOptions::new();
    options.selection = wanted;
    options.is_strict = is_strict;
    Lines::new(range, Vec::new(), options)
}

/// Returns the releases in a range of the crate in Cargo mode.
fn releases(range: &str) -> VersionRange {
    let meaning = Rules { dialect: Dialect::CrateCargo, pre_releases: PreReleases::Excluded };
    VersionRange::try_parse(range, meaning).unwrap()
}
