//! Parses versions with `Version::parse` of the crate `semver`. For each line of standard input,
//! with the escapes `\n`, `\r`, `\t` and `\\`, it writes `none`, or the numbers, the pre-release
//! after `-` and the build after `+`, separated by spaces. For a line that begins with a
//! requirement and a tab it writes whether `VersionReq::matches` holds, or `none` if either is
//! invalid.

use semver::{Version, VersionReq};
use std::io::{BufRead, BufWriter, Write};

/// Returns the text of a line, which has the escapes of a field of `replayed_cases`.
fn expanded(line: &str) -> String {
    let mut characters = line.chars();
    let mut text = String::new();
    while let Some(character) = characters.next() {
        text.push(match character {
            '\\' => match characters.next().expect("an escape has a character") {
                'n' => '\n',
                'r' => '\r',
                't' => '\t',
                other => other,
            },
            _ => character,
        });
    }
    text
}

fn main() -> std::io::Result<()> {
    let mut out = BufWriter::new(std::io::stdout());
    for line in std::io::stdin().lock().split(b'\n') {
        let line = String::from_utf8(line?).expect("lines are UTF-8");
        if let Some((requirement, version)) = line.split_once('\t') {
            match (VersionReq::parse(requirement), Version::parse(&expanded(version))) {
                (Ok(requirement), Ok(version)) => writeln!(out, "{}", requirement.matches(&version))?,
                _ => writeln!(out, "none")?,
            }
            continue;
        }
        match Version::parse(&expanded(&line)) {
            Ok(Version { major, minor, patch, pre, build }) => {
                writeln!(out, "{major}.{minor}.{patch} -{pre} +{build}")?
            }
            Err(_) => writeln!(out, "none")?,
        }
    }
    out.flush()
}
