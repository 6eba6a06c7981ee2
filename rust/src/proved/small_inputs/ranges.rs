// Made by tools/erase.py from crates/small_inputs/src/ranges.rt; not edited by hand.
//! Calls that read a range, except for those that return a set of versions.
#![cfg(feature = "std")]

use crate::rattle_std::prelude::*;
use crate::proved::small_inputs::checksum::Checksum;
use crate::proved::invalid_ranges::refusals::refused;
use crate::proved::range_terms::term::{Component, PartialVersion};
use crate::proved::range_terms::terms::Terms;
use crate::proved::release_filter::{filter_text, release_meets, version_meets};
use crate::proved::semver_parser::version::{self, Version, VersionRef};
use crate::proved::semver_parser::{Compat, RangeError, RangeSet, report};
use crate::proved::semver_ranges::dialect::Dialect;
use crate::rattle_std::AllocError;
use crate::rattle_std::io;
use crate::rattle_std::io::Write;
use crate::proved::tool_ranges::meaning::{Rules, check};
use crate::proved::tool_ranges::{npm, rewriting};
use crate::proved::version_sets::PreReleases;

pub const DIALECTS: [Dialect; 4] = [
    Dialect::Cargo,
    Dialect::Npm,
    Dialect::CrateCargo,
    Dialect::CrateNpm,
];

const MODES: [Compat; 2] = [Compat::Cargo, Compat::Npm];

/// Versions that may satisfy a range.
const VERSIONS: &str = "0.0.0 0.1.0 1.0.0 1.2.3-a.1 1.2.3 1.2.4-0 1.9.0 2.0.0-a 2.0.0";

/// Reads a range set in both modes, with raised and with exact bounds.
pub fn add_range_sets(bytes: &[u8], sum: &mut Checksum) -> io::Result<()> {
    let Ok(text) = crate::rattle_std::str::from_utf8(bytes) else {
        return Ok(());
    };
    for mode in MODES {
        add_range_set(&RangeSet::try_parse(text, mode), sum)?;
        add_range_set(&RangeSet::parse_exact(text, mode), sum)?;
    }
    add_range_set(&RangeSet::try_from_str(text), sum)
}

fn add_range_set(set: &Result<RangeSet, RangeError>, sum: &mut Checksum) -> io::Result<()> {
    match set {
        Ok(set) => write!(sum, "{set};"),
        Err(error) => write!(sum, "{error};"),
    }
}

/// Writes a range as comparators in each dialect, and in npm's with all pre-releases.
pub fn add_comparators(bytes: &[u8], sum: &mut Checksum) -> io::Result<()> {
    let Ok(text) = crate::rattle_std::str::from_utf8(bytes) else {
        return Ok(());
    };
    for dialect in DIALECTS {
        add_range_set(&rewriting::rewrite(dialect, text), sum)?;
    }
    add_range_set(&npm::rewrite_included(text), sum)
}

/// Checks a range in each dialect.
pub fn add_checked(bytes: &[u8], sum: &mut Checksum) -> io::Result<()> {
    let Ok(text) = crate::rattle_std::str::from_utf8(bytes) else {
        return Ok(());
    };
    for dialect in DIALECTS {
        let pre_releases = PreReleases::ByDialect;
        match check(
            Rules {
                dialect,
                pre_releases,
            },
            text,
        ) {
            Ok(()) => sum.add(1),
            Err(error) => write!(sum, "{error};")?,
        }
    }
    Ok(())
}

/// Returns where and why a string isn't a range in each dialect.
pub fn add_refused(bytes: &[u8], sum: &mut Checksum) -> io::Result<()> {
    let Ok(text) = crate::rattle_std::str::from_utf8(bytes) else {
        return Ok(());
    };
    for dialect in DIALECTS {
        if let Some(refusal) = refused(dialect, text)? {
            let error = refusal.error;
            sum.add(refusal.offset as u64);
            sum.add_bytes(refusal.reason.name().as_bytes());
            write!(sum, "{error};")?;
        }
    }
    Ok(())
}

/// Reads the terms of a range in each dialect, and raises each to another version.
pub fn add_terms(bytes: &[u8], sum: &mut Checksum) -> io::Result<()> {
    let Ok(text) = crate::rattle_std::str::from_utf8(bytes) else {
        return Ok(());
    };
    let Some(raised) = version::read_ref("3.4.5-b") else {
        return Ok(());
    };
    for dialect in DIALECTS {
        match Terms::try_parse(text, dialect) {
            Ok(terms) => {
                for term in terms {
                    sum.add(term.range as u64);
                    sum.add(term.span.start as u64);
                    sum.add(term.span.end as u64);
                    sum.add_bytes(term.operator.sign().as_bytes());
                    add_partial(&term.version, &raised, sum)?;
                    if let Some(upper) = term.upper {
                        add_partial(&upper, &raised, sum)?;
                    }
                }
            }
            Err(error) => write!(sum, "{error};")?,
        }
    }
    Ok(())
}

fn add_partial(
    written: &PartialVersion<'_>,
    raised: &VersionRef<'_>,
    sum: &mut Checksum,
) -> io::Result<()> {
    sum.add(written.span.start as u64);
    sum.add(written.span.end as u64);
    sum.add(u64::from(written.has_v));
    add_component(Some(written.major), sum)?;
    add_component(written.minor, sum)?;
    add_component(written.patch, sum)?;
    sum.add_bytes(written.pre.as_bytes());
    sum.add_bytes(written.build.as_bytes());
    let other = written.with_version(raised);
    write!(sum, "{written};{other};")
}

fn add_component(component: Option<Component>, sum: &mut Checksum) -> io::Result<()> {
    match component {
        Some(component) => write!(sum, "{component};"),
        None => write!(sum, ";"),
    }
}

/// Returns the versions of a list.
fn versions(list: &str) -> Result<Vec<Version>, AllocError> {
    let mut versions = Vec::new();
    for item in list.split(' ') {
        if let Some(version) = version::read(item)? {
            versions.fallible_push(version)?;
        }
    }
    Ok(versions)
}

/// Filters versions by a range, and by its range set.
pub fn add_met(bytes: &[u8], sum: &mut Checksum) -> io::Result<()> {
    let Ok(text) = crate::rattle_std::str::from_utf8(bytes) else {
        return Ok(());
    };
    let versions = versions(VERSIONS)?;
    for mode in MODES {
        match filter_text(text, mode, &versions) {
            Ok(kept) => sum.add(kept.len() as u64),
            Err(error) => write!(sum, "{error};")?,
        }
        let Ok(set) = RangeSet::try_parse(text, mode) else {
            continue;
        };
        for version in versions.iter() {
            sum.add(u64::from(release_meets(&set, version)));
            sum.add(u64::from(version_meets(&set, version)));
        }
    }
    Ok(())
}

/// Writes the report of the program `semver-parser`.
pub fn add_report(bytes: &[u8], sum: &mut Checksum) -> io::Result<()> {
    let Ok(text) = crate::rattle_std::str::from_utf8(bytes) else {
        return Ok(());
    };
    let ran = report::run(text, sum);
    sum.add(u64::from(report::status(&ran)));
    Ok(())
}
