//! The program that `release-filter` is compared with: the same filter with the crate `semver`.
//!
//! `filter-by-semver [--pre-stated] [--highest] REQUIREMENT` copies the lines of standard input to
//! standard output whose version is a release that satisfies the requirement. With `--pre-stated`
//! it also copies pre-releases, by the rule of the crate. With `--highest` it copies only the line
//! with the highest version. It exits with 0 if a line was written, with 1 if none was, and with 2
//! after an error.

use semver::{Prerelease, Version, VersionReq};
use std::error::Error;
use std::io::{self, BufRead, BufWriter, Write};
use std::process::ExitCode;

/// What the arguments require.
struct Wanted {
    requirement: VersionReq,
    has_pre_releases: bool,
    is_highest: bool,
}

fn main() -> ExitCode {
    match wanted().and_then(|wanted| if wanted.is_highest { find(&wanted) } else { copy(&wanted) })
    {
        Ok(true) => ExitCode::SUCCESS,
        Ok(false) => ExitCode::from(1),
        Err(error) => {
            eprintln!("{error}");
            ExitCode::from(2)
        }
    }
}

fn wanted() -> Result<Wanted, Box<dyn Error>> {
    let arguments: Vec<String> = std::env::args().skip(1).collect();
    let has = |option: &str| arguments.iter().any(|argument| argument == option);
    let requirement = arguments.last().ok_or("usage: filter-by-semver [OPTIONS] REQUIREMENT")?;
    Ok(Wanted {
        requirement: VersionReq::parse(requirement)?,
        has_pre_releases: has("--pre-stated"),
        is_highest: has("--highest"),
    })
}

/// Copies the lines, and returns whether there was one. Standard input is already buffered.
fn copy(wanted: &Wanted) -> Result<bool, Box<dyn Error>> {
    let mut input = io::stdin().lock();
    let mut output = BufWriter::new(io::stdout().lock());
    let mut line = Vec::new();
    let mut has_copied = false;
    while input.read_until(b'\n', &mut line)? > 0 {
        if kept(wanted, &line).is_some() {
            output.write_all(&line)?;
            has_copied = true;
        }
        line.clear();
    }
    output.flush()?;
    Ok(has_copied)
}

/// Writes the line with the highest version, the first among equals, and returns whether there was
/// one.
fn find(wanted: &Wanted) -> Result<bool, Box<dyn Error>> {
    let mut input = io::stdin().lock();
    let mut line = Vec::new();
    let mut highest: Option<(Version, Vec<u8>)> = None;
    while input.read_until(b'\n', &mut line)? > 0 {
        if let Some(version) = kept(wanted, &line) {
            let is_above = highest
                .as_ref()
                .map_or(true, |(other, _)| precedence(&version) > precedence(other));
            if is_above {
                highest = Some((version, line.clone()));
            }
        }
        line.clear();
    }
    match highest {
        Some((_, line)) => io::stdout().write_all(&line).map(|()| true).map_err(Into::into),
        None => Ok(false),
    }
}

/// Returns what decides precedence: everything except the build metadata.
fn precedence(version: &Version) -> (u64, u64, u64, &Prerelease) {
    (version.major, version.minor, version.patch, &version.pre)
}

/// Returns the version in a line if the requirement accepts it.
fn kept(wanted: &Wanted, line: &[u8]) -> Option<Version> {
    let line = line.strip_suffix(b"\n").unwrap_or(line);
    let line = line.strip_suffix(b"\r").unwrap_or(line);
    let version = std::str::from_utf8(line).ok().and_then(|text| Version::parse(text).ok())?;
    let counts = wanted.has_pre_releases || version.pre.is_empty();
    (counts && wanted.requirement.matches(&version)).then_some(version)
}
