//! The calls that are compared. Each returns a number that depends on everything that was parsed,
//! or `REFUSED` if a text is invalid.

use crate::proved::semver_versions::version::{read, read_ref, read_ref_in, Version as Plain};
use crate::proved::tool_ranges::{cargo, meaning};
use crate::proved::version_sets::VersionSet;
use crate::shared::{self, version_at, PreReleases, Rules};
use here::filters::filter_text;
use here::{satisfies, terms, Compat, Dialect, VersionRange, VersionRef};
use semver::{Version, VersionReq};
use semver_parser::{version, RangeSet};
use std::hint::black_box;

/// The result for an invalid text.
pub const REFUSED: u64 = u64::MAX;

/// Parses one text.
pub type Call = fn(&str) -> u64;

/// Parses a version here. Returns the sum of its numbers and of the counts of its identifiers.
pub fn here_version(text: &str) -> u64 {
    here::version::parse(text).map_or(REFUSED, |version| {
        let identifiers = (version.pre.len() + version.build.len()) as u64;
        sum([version.major, version.minor, version.patch, identifiers])
    })
}

/// Parses a version with the crate `semver-parser`. Returns the same sum.
pub fn parser_version(text: &str) -> u64 {
    version::parse(text).map_or(REFUSED, |version| {
        let identifiers = (version.pre.len() + version.build.len()) as u64;
        sum([version.major, version.minor, version.patch, identifiers])
    })
}

/// Parses a version with the crate `semver`, which keeps a pre-release as one text, and a build,
/// too. Returns the sum of its numbers and of the lengths of both.
pub fn semver_version(text: &str) -> u64 {
    Version::parse(text).map_or(REFUSED, |version| {
        let bytes = (version.pre.len() + version.build.len()) as u64;
        sum([version.major, version.minor, version.patch, bytes])
    })
}

/// Parses a version of SemVer 2.0.0 here. Returns the sum of its numbers, and of 1 if it has a
/// pre-release.
pub fn here_owned(text: &str) -> u64 {
    here::Version::parse(text, Dialect::Cargo).map_or(REFUSED, |version| {
        let pre_release = u64::from(version.is_pre_release());
        sum([version.major(), version.minor(), version.patch(), pre_release])
    })
}

/// Does the same, and borrows the text.
pub fn here_borrowed(text: &str) -> u64 {
    VersionRef::parse(text, Dialect::Cargo).map_or(REFUSED, |version| {
        let pre_release = u64::from(version.is_pre_release());
        sum([version.major(), version.minor(), version.patch(), pre_release])
    })
}

/// Does the same with the crate `semver`.
pub fn semver_owned(text: &str) -> u64 {
    Version::parse(text).map_or(REFUSED, |version| {
        let pre_release = u64::from(!version.pre.is_empty());
        sum([version.major, version.minor, version.patch, pre_release])
    })
}

/// Returns 1 if a text is a version here, by the call that only checks this. The parsed version is
/// dropped at once.
pub fn here_is_version(text: &str) -> u64 {
    is_read(matches!(read(text), Ok(Some(_))))
}

/// Returns 1 if a text is a version in the crate `semver-parser`.
pub fn parser_is_version(text: &str) -> u64 {
    is_read(version::parse(text).is_ok())
}

/// Returns 1 if a text is a version in the crate `semver`.
pub fn semver_is_version(text: &str) -> u64 {
    is_read(Version::parse(text).is_ok())
}

/// Parses a range set here, in Cargo mode. Returns how many comparators it has.
pub fn here_range(text: &str) -> u64 {
    here::RangeSet::parse(text, Compat::Cargo).map_or(REFUSED, |set| {
        set.ranges.iter().map(|range| range.comparator_set.len() as u64).sum()
    })
}

/// Parses a range set with the crate `semver-parser`, in Cargo mode. Returns the same count.
pub fn parser_range(text: &str) -> u64 {
    RangeSet::parse(text, semver_parser::Compat::Cargo).map_or(REFUSED, |set| {
        set.ranges.iter().map(|range| range.comparator_set.len() as u64).sum()
    })
}

/// Parses a requirement with the crate `semver`. Returns how many comparators it has, as written.
pub fn semver_range(text: &str) -> u64 {
    VersionReq::parse(text).map_or(REFUSED, |requirement| requirement.comparators.len() as u64)
}

/// Returns 1 if a text is a requirement in Cargo's dialect here. Its comparators are made.
pub fn here_requirement(text: &str) -> u64 {
    is_read(cargo::rewrite(text).is_ok())
}

/// Returns 1 if a text is a range in Cargo's dialect here. The set of its versions is made.
pub fn here_version_range(text: &str) -> u64 {
    is_read(VersionRange::parse(text, Dialect::Cargo).is_ok())
}

/// Returns whether a version satisfies a requirement in Cargo's dialect here. A text has both,
/// separated by a tab.
pub fn here_meets(text: &str) -> u64 {
    satisfies_as(Dialect::Cargo, text)
}

/// Returns the same in npm's dialect.
pub fn here_meets_npm(text: &str) -> u64 {
    satisfies_as(Dialect::Npm, text)
}

/// Returns the same in a dialect. Each call has its own copy, as if the dialect were written out.
#[inline(always)]
fn satisfies_as(dialect: Dialect, text: &str) -> u64 {
    let satisfied = text
        .split_once('\t')
        .and_then(|(range, version)| satisfies(version, range, dialect).ok());
    satisfied.map_or(REFUSED, u64::from)
}

/// Returns the same with the crate `semver`, as `here_meets` does.
pub fn semver_meets(text: &str) -> u64 {
    let read = text.split_once('\t').and_then(|(range, version)| {
        Some((VersionReq::parse(range).ok()?, Version::parse(version).ok()?))
    });
    read.map_or(REFUSED, |(requirement, version)| u64::from(requirement.matches(&version)))
}

/// Returns 1 if a text is a range here, in Cargo mode and with the default rule. The set is made.
pub fn here_set(text: &str) -> u64 {
    is_read(set_of(text).is_some())
}

fn set_of(text: &str) -> Option<VersionSet> {
    meaning::read(rules(0), text).ok()
}

/// Returns the crate's Cargo mode with the rule for pre-releases that has a number.
fn rules(number: i32) -> Rules {
    let pre_releases = PreReleases::from_number(number).expect("a rule");
    Rules { dialect: shared::Dialect::CrateCargo, pre_releases }
}

/// Returns 1 if a text is a range set in the crate `semver-parser`, in Cargo mode.
pub fn parser_is_range(text: &str) -> u64 {
    is_read(RangeSet::parse(text, semver_parser::Compat::Cargo).is_ok())
}

/// Returns 1 if a text is a requirement in the crate `semver`.
pub fn semver_is_range(text: &str) -> u64 {
    is_read(VersionReq::parse(text).is_ok())
}

/// Returns how many terms a range has in npm's dialect.
pub fn here_terms(text: &str) -> u64 {
    terms(text, Dialect::Npm).map_or(REFUSED, |terms| terms.map(black_box).count() as u64)
}

/// Gives the last version in a range the numbers of 3.1.4, in npm's dialect. Returns the length of
/// the new range. The last version begins with the last digit of the text.
pub fn here_replaced(text: &str) -> u64 {
    let start = text.rfind(|it: char| it.is_ascii_digit()).unwrap_or(0);
    let version = read_ref_in(b"3.1.4", shared::Dialect::Npm.grammar());
    match (version_at(text, start, shared::Dialect::Npm), version) {
        (Ok(Some((before, written, after))), Some(version)) => {
            format!("{before}{}{after}", written.with_version(&version)).len() as u64
        }
        _ => REFUSED,
    }
}

/// Parses versions, and checks for each of the ranges, one on each line, whether its set here
/// contains each version, in Cargo mode and with the default rule. Returns how often one is
/// contained.
pub fn here_has(ranges: &str, versions: &str) -> u64 {
    read_and_ask(ranges, versions).unwrap_or(REFUSED)
}

fn read_and_ask(ranges: &str, versions: &str) -> Option<u64> {
    let read = versions.lines().map(|line| read(line).ok().flatten());
    let versions = read.collect::<Option<Vec<Plain>>>()?;
    let mut count = 0;
    for range in ranges.lines() {
        let set = set_of(range)?;
        count += versions.iter().filter(|version| set.contains(version)).count() as u64;
    }
    Some(count)
}

fn read_here(versions: &str) -> Option<Vec<here::version::Version>> {
    versions.lines().map(|line| here::version::parse(line).ok()).collect()
}

/// Checks `times` times whether the set of a text is a subset of another set of the same text.
/// Returns how often it is.
pub fn here_within(text: &str, times: u64) -> u64 {
    let (Some(set), Some(other)) = (set_of(text), set_of(text)) else {
        return REFUSED;
    };
    (0..times).map(|_| u64::from(black_box(&set).is_subset(&other) == Ok(true))).sum()
}

/// Parses versions, and filters them by each of the ranges here, one on each line. Returns how many
/// are kept in total.
pub fn here_filter(ranges: &str, versions: &str) -> u64 {
    read_and_filter_here(ranges, versions).unwrap_or(REFUSED)
}

fn read_and_filter_here(ranges: &str, versions: &str) -> Option<u64> {
    let versions = read_here(versions)?;
    let mut kept = 0;
    for range in ranges.lines() {
        kept += filter_text(range, Compat::Cargo, &versions).ok()?.len() as u64;
    }
    Some(kept)
}

/// Does the same with the crate `semver`.
pub fn semver_filter(ranges: &str, versions: &str) -> u64 {
    read_and_filter(ranges, versions).unwrap_or(REFUSED)
}

fn read_and_filter(ranges: &str, versions: &str) -> Result<u64, semver::Error> {
    let versions = versions.lines().map(Version::parse).collect::<Result<Vec<Version>, _>>()?;
    let mut kept = 0;
    for range in ranges.lines() {
        let requirement = VersionReq::parse(range)?;
        let releases: Vec<&Version> =
            versions.iter().filter(|version| requirement.matches(version)).collect();
        kept += releases.len() as u64;
    }
    Ok(kept)
}

/// Filters versions, one on each line, and parses only those completely that the range contains.
/// Returns how many these are.
pub fn here_read_kept(range: &str, versions: &str) -> u64 {
    read_kept(range, versions).map_or(REFUSED, |kept| kept.len() as u64)
}

fn read_kept(range: &str, versions: &str) -> Option<Vec<Plain>> {
    let range = shared::VersionRange::try_parse(range, rules(2)).ok()?;
    let borrowed = versions.lines().filter_map(read_ref);
    let kept = borrowed.filter(|borrowed| range.contains_ref(borrowed));
    kept.map(|borrowed| borrowed.version()).collect::<Result<_, _>>().ok()
}

/// Does the same with the crate `semver`. Each version that the range doesn't contain is dropped at
/// once.
pub fn semver_read_kept(range: &str, versions: &str) -> u64 {
    VersionReq::parse(range).map_or(REFUSED, |requirement| {
        let read = versions.lines().filter_map(|line| Version::parse(line).ok());
        let kept: Vec<Version> = read.filter(|version| requirement.matches(version)).collect();
        kept.len() as u64
    })
}

fn is_read(is_read: bool) -> u64 {
    if is_read {
        1
    } else {
        REFUSED
    }
}

fn sum(numbers: [u64; 4]) -> u64 {
    numbers.iter().fold(0, |sum, number| sum.wrapping_add(*number))
}
