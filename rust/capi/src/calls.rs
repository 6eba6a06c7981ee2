//! The proved calls behind the functions.

use crate::errors::{Error, Problem};
use crate::heap::moved;
use crate::message::printed;
use crate::proved::semver_ranges::{Compat, Op, RangeSet};
use crate::proved::tool_ranges::meaning;
use crate::proved::version_sets::OperationError;
use crate::rattle_std::{FalliblePush, FallibleToString};
use crate::shared::{self, read_ref_in, rewrite, SatisfiesError, VersionRange, VersionRef};
use crate::shared::{repaired, requirement, span_at, upgraded, Reason, UpgradeError};
use crate::shared::{Combination, Dialect, Extreme, PreReleases, RangeError, Rules, Terms};
use crate::types::{dialect, Comparator, Options, PartialVersion, Span, StringView, Version};
use alloc::{string::String, vec::Vec};
use core::{ffi::c_char, ptr, str};

type Answer<'a, T> = Result<T, Problem<'a>>;

/// Reads a version. `index` says which string of the call it is.
#[inline(always)]
fn version(bytes: &[u8], dialect: Dialect, index: usize) -> Answer<'_, VersionRef<'_>> {
    read_ref_in(bytes, dialect.grammar()).ok_or(Problem::Version { bytes, dialect, index })
}

/// Returns a range string as UTF-8. It is first tried as ASCII, for speed. `index` says which
/// string of the call it is.
#[inline(always)]
fn text(bytes: &[u8], index: usize) -> Answer<'_, &str> {
    if bytes.is_ascii() {
        // SAFETY: ASCII is UTF-8.
        return Ok(unsafe { str::from_utf8_unchecked(bytes) });
    }
    str::from_utf8(bytes).map_err(|error| Problem::NotUtf8 { offset: error.valid_up_to(), index })
}

/// Returns the problem with a range. `index` says which string of the call it is.
fn refused<'a>(
    range: &'a str,
    dialect: Dialect,
    index: usize,
) -> impl Fn(RangeError) -> Problem<'a> {
    move |error| Problem::Range { error, range, dialect, index }
}

#[inline(always)]
pub fn satisfies<'a>(bytes: &'a [u8], range: &'a [u8], options: Options) -> Answer<'a, bool> {
    let rules = options.rules()?;
    let dialect = rules.dialect;
    let range = text(range, 1).or_else(|problem| version(bytes, dialect, 0).and(Err(problem)))?;
    shared::satisfies(bytes, range, rules).map_err(|error| match error {
        SatisfiesError::InvalidVersion => Problem::Version { bytes, dialect, index: 0 },
        SatisfiesError::InvalidRange(error) => Problem::Range { error, range, dialect, index: 1 },
    })
}

pub fn check_range(range: &[u8], number: i32) -> Answer<'_, ()> {
    let dialect = dialect(number)?;
    let range = text(range, 0)?;
    let rules = Rules { dialect, pre_releases: PreReleases::ByDialect };
    meaning::check(rules, range).map_err(refused(range, dialect, 0))
}

/// Returns the terms of a range, each of which has been checked.
pub fn terms(range: &[u8], number: i32) -> Answer<'_, Terms<'_>> {
    let dialect = dialect(number)?;
    let range = text(range, 0)?;
    Terms::try_parse(range, dialect).map_err(refused(range, dialect, 0))
}

/// Returns a range in which a version of a term, which has to be as it is given, has the numbers of
/// another version. The range is read before the other version, whose error comes last.
pub fn replace_version<'a>(
    range: &'a [u8],
    written: &PartialVersion,
    bytes: &'a [u8],
    number: i32,
) -> Answer<'a, *mut c_char> {
    let dialect = dialect(number)?;
    let range = text(range, 0)?;
    let found = shared::version_at(range, written.start, dialect);
    let (before, it, after) = found
        .map_err(refused(range, dialect, 0))?
        .filter(|(_, it, _)| PartialVersion::of(it) == *written)
        .ok_or(Problem::Argument)?;
    let version = it.with_version(&version(bytes, dialect, 1)?);
    printed(format_args!("{before}{version}{after}"))
}

/// Raises a requirement to a newer version. The error of the version comes first.
pub fn upgrade<'a>(
    bytes: &'a [u8],
    newer: &'a [u8],
    options: Options,
) -> Answer<'a, *mut c_char> {
    let rules = options.rules()?;
    version(newer, rules.dialect, 1)?;
    let range = text(bytes, 0)?;
    match upgraded(range, newer, rules) {
        Ok(found) => found.map_or(Ok(ptr::null_mut()), printed),
        Err(UpgradeError::InvalidRange(error)) => Err(refused(range, rules.dialect, 0)(error)),
        Err(UpgradeError::OutOfMemory) => Err(Problem::Memory),
        Err(_) => Err(Problem::Upgrade),
    }
}

pub fn parse_version(bytes: &[u8], number: i32) -> Answer<'_, Version> {
    let borrowed = version(bytes, dialect(number)?, 0)?;
    let (major, minor, patch) = (borrowed.major(), borrowed.minor(), borrowed.patch());
    let pre = StringView::of(borrowed.pre_bytes());
    Ok(Version { major, minor, patch, pre, build: StringView::of(borrowed.build().as_bytes()) })
}

pub fn compare_versions<'a>(bytes: &'a [u8], other: &'a [u8], number: i32) -> Answer<'a, i32> {
    let dialect = dialect(number)?;
    let borrowed = version(bytes, dialect, 0)?;
    Ok(borrowed.compare(&version(other, dialect, 1)?) as i32)
}

pub fn parse_range(range: &[u8], options: Options) -> Answer<'_, *mut VersionRange> {
    let rules = options.rules()?;
    let range = text(range, 0)?;
    let read = VersionRange::try_parse(range, rules).map_err(refused(range, rules.dialect, 0))?;
    Ok(moved(read)?)
}

#[inline(always)]
pub fn contains<'a>(range: &VersionRange, bytes: &'a [u8], index: usize) -> Answer<'a, bool> {
    let dialect = range.rules().dialect;
    range.try_contains_bytes(bytes).map_err(|_| Problem::Version { bytes, dialect, index })
}

pub fn lowest_version(range: &VersionRange) -> Answer<'_, *mut c_char> {
    range.try_lowest_version()?.map_or(Ok(ptr::null_mut()), printed)
}

pub fn range_to_requirement(range: &VersionRange) -> Answer<'_, *mut c_char> {
    requirement(range)?.map_or(Ok(ptr::null_mut()), printed)
}

/// Returns the span of an error in its string. In a string that isn't UTF-8 it is one byte.
pub fn error_span(error: &Error, bytes: &[u8]) -> Span {
    let offset = bytes.len().min(error.offset);
    match (str::from_utf8(bytes), Reason::from_number(error.reason)) {
        (Ok(string), Some(reason)) => Span::from(span_at(string, offset, reason)),
        (_, Some(_)) => Span { start: offset, end: bytes.len().min(offset + 1) },
        (_, None) => Span { start: offset, end: offset },
    }
}

/// Returns the string that may have been meant, or null if none is known.
pub fn suggestion<'a>(error: &Error, bytes: &[u8], number: i32) -> Answer<'a, *mut c_char> {
    let dialect = dialect(number)?;
    let (Ok(string), Some(expected)) = (str::from_utf8(bytes), error.expected()) else {
        return Ok(ptr::null_mut());
    };
    repaired(expected, dialect, string)?.map_or(Ok(ptr::null_mut()), printed)
}

pub fn range_to_string(range: &VersionRange, pre_releases: bool) -> Answer<'_, *mut c_char> {
    let set = range.versions();
    printed(if pre_releases { set.pre_release_ranges()? } else { set.release_ranges()? })
}

/// How many versions are compared at once, in addition to the best one so far.
const AT_ONCE: usize = 32;

/// Returns the index of the highest or lowest version that is in a range. It does not allocate: the
/// best version so far is compared first with the next ones, and what isn't filled is an invalid
/// version.
pub fn outermost<'a>(
    range: &VersionRange,
    strings: &'a [StringView],
    skip_invalid: bool,
    which: Extreme,
) -> Answer<'a, usize> {
    for (at, string) in strings.iter().enumerate().filter(|_| !skip_invalid) {
        version(string.bytes(), range.rules().dialect, at)?;
    }
    let (mut found, mut index): (&[u8], usize) = (b"", strings.len());
    for (chunk, next) in strings.chunks(AT_ONCE).enumerate() {
        let mut compared: [&[u8]; AT_ONCE + 1] = [b""; AT_ONCE + 1];
        compared[0] = found;
        compared[1..].iter_mut().zip(next).for_each(|(to, version)| *to = version.bytes());
        if let Some(at @ 1..) = range.extreme_index(which, &compared) {
            (found, index) = (compared[at], chunk * AT_ONCE + at - 1);
        }
    }
    Ok(index)
}

/// Compares two ranges with the same options.
pub fn compare<'a>(
    range: &'a VersionRange,
    other: &'a VersionRange,
    compared: impl Fn(&VersionRange, &VersionRange) -> Result<bool, OperationError>,
) -> Answer<'a, bool> {
    if range.rules() != other.rules() {
        return Err(different(range, other));
    }
    compared(range, other).map_err(|_| different(range, other))
}

pub fn combine<'a>(
    range: &'a VersionRange,
    other: &'a VersionRange,
    how: Combination,
) -> Answer<'a, *mut VersionRange> {
    match range.combined(how, other) {
        Ok(made) => Ok(moved(made)?),
        Err(OperationError::OutOfMemory) => Err(Problem::Memory),
        Err(_) => Err(different(range, other)),
    }
}

/// Returns how two ranges differ: in their dialects, or otherwise in which pre-releases count.
fn different<'a>(range: &VersionRange, other: &VersionRange) -> Problem<'a> {
    if range.rules().dialect != other.rules().dialect {
        return Problem::Dialects;
    }
    Problem::PreReleases
}

/// semver_parser_comparators: ranges, their comparators, and the printed form of each.
pub struct Comparators {
    set: RangeSet,
    pub listed: Vec<Comparator>,
    _printed: Vec<String>,
}

pub fn comparators(bytes: &[u8], number: i32, exact: bool) -> Answer<'_, *mut Comparators> {
    let dialect = dialect(number)?;
    let range = text(bytes, 0)?;
    let read = match dialect {
        Dialect::CrateCargo if !exact => RangeSet::try_parse(range, Compat::Cargo),
        Dialect::CrateNpm if !exact => RangeSet::try_parse(range, Compat::Npm),
        _ => rewrite(dialect, range),
    };
    let set = read.map_err(refused(range, dialect, 0))?;
    let (mut listed, mut printed) = (Vec::new(), Vec::new());
    for (range, one) in set.ranges.iter().enumerate() {
        for it in &one.comparator_set {
            // The pre-release is what is printed after the first hyphen.
            let text = it.fallible_to_string()?;
            let pre = text.split_once('-').map_or("", |(_, pre)| pre);
            let (op, pre) = (number_of(&it.op), StringView::of(pre.as_bytes()));
            let (major, minor, patch) = (it.major, it.minor, it.patch);
            listed.fallible_push(Comparator { range, op, major, minor, patch, pre })?;
            printed.fallible_push(text)?;
        }
    }
    Ok(moved(Comparators { set, listed, _printed: printed })?)
}

impl Comparators {
    pub fn get(&self, index: usize) -> Answer<'_, Comparator> {
        self.listed.get(index).copied().ok_or(Problem::Argument)
    }

    pub fn to_string(&self) -> Answer<'_, *mut c_char> {
        printed(&self.set)
    }
}

fn number_of(op: &Op) -> i32 {
    match op {
        Op::Lt => 0,
        Op::Lte => 1,
        Op::Gt => 2,
        Op::Gte => 3,
        Op::Eq => 4,
    }
}
