// Made by tools/erase.py from crates/library_tests/src/bytes.rt; not edited by hand.
//! Versions read from bytes, which needn't be UTF-8.
#![cfg(feature = "std")]

use crate::rattle_std::prelude::*;
use crate::proved::semver_parser::version::{self, Grammar, Identifier};
use crate::rattle_std::AllocError;
use crate::rattle_std::io;

/// Bytes, and the version that they spell as it is printed, or `None`.
const BYTES: [(&[u8], Option<&str>); 14] = [
    (b"1.2.3", Some("1.2.3")),
    (b" 1.2.3-rc.4+b5\n", Some("1.2.3-rc.4+b5")),
    (b"\t1.2.3+7\r\n", Some("1.2.3+7")),
    (b"", None),
    (b"1.2", None),
    (b"\xff", None),
    (b"\xff1.2.3", None),
    (b"1.2.3\xff", None),
    (b"1.2.3 \xff", None),
    (b"1.2.3-a\xff", None),
    (b"1.2.3-\xc3\xa9", None),
    (b"1.2.3+a.\xc3", None),
    (b"1.\xd9\xa2.3", None),
    (b"\xc2\xa01.2.3", None),
];

/// Strings, and their parts, each with its offset.
const PARTS: [(&str, (&str, usize), (&str, usize)); 6] = [
    ("1.2.3", ("", 0), ("", 0)),
    ("1.2.3-rc.1+b5", ("rc.1", 6), ("b5", 11)),
    (" 1.2.3-rc.4+b5\n", ("rc.4", 7), ("b5", 12)),
    ("1.2.3+b5", ("", 0), ("b5", 6)),
    ("\t 10.20.30-a-b ", ("a-b", 11), ("", 0)),
    ("1.0.0-1+1", ("1", 6), ("1", 8)),
];

/// Bytes, and whether they spell a version in the dialects of the crate, of Cargo and of npm.
const DIALECTS: [(&[u8], [bool; 3]); 10] = [
    (b"1.2.3-rc.1+b5", [true, true, true]),
    (b"\t1.2.3 ", [true, false, true]),
    (b"v1.2.3", [false, false, true]),
    (b"1.2.3-01", [true, false, false]),
    (b"1.2.3-a--b", [false, true, true]),
    (b"1.2.3+--", [false, true, true]),
    (b"9007199254740992.0.0", [true, true, false]),
    (b"\xc2\xa01.2.3\xe2\x80\x83", [false, false, true]),
    (b"1.2.3\xff", [false, false, false]),
    (b"1.2", [false, false, false]),
];

/// Writes the indices of the bytes with another result, and how many there were.
pub fn write_bytes(rt: &impl Print) -> io::Result<()> {
    for (place, (bytes, wanted)) in BYTES.iter().enumerate() {
        if !are_read_as(bytes, *wanted)? || !are_borrowed_as(bytes, *wanted)? {
            crate::rattle_std::fallible_println!(rt; "bytes: wrong at {place}")?;
        }
    }
    for (text, pre, build) in PARTS.iter() {
        if !has_parts(text, *pre, *build) || !are_cut_as(text, pre.0, build.0)? {
            crate::rattle_std::fallible_println!(rt; "parts: wrong of {text}")?;
        }
    }
    for (place, (bytes, wanted)) in DIALECTS.iter().enumerate() {
        if !are_versions(bytes, *wanted) {
            crate::rattle_std::fallible_println!(rt; "dialects: wrong at {place}")?;
        }
    }
    crate::rattle_std::fallible_println!(rt; "bytes: {} texts and others", BYTES.len())
}

/// Returns whether the bytes are read as the version that is printed as `wanted`, or as none.
fn are_read_as(bytes: &[u8], wanted: Option<&str>) -> Result<bool, AllocError> {
    match (version::read_bytes(bytes)?, wanted) {
        (Some(version), Some(wanted)) => Ok(version.fallible_to_string()?.as_str() == wanted),
        (None, None) => Ok(true),
        _ => Ok(false),
    }
}

/// Returns whether the bytes have a borrowed version, whose version is printed as `wanted`, or
/// none.
fn are_borrowed_as(bytes: &[u8], wanted: Option<&str>) -> Result<bool, AllocError> {
    match (version::read_ref_bytes(bytes), wanted) {
        (Some(borrowed), Some(wanted)) => {
            let version = borrowed.version()?;
            Ok(version.fallible_to_string()?.as_str() == wanted)
        }
        (None, None) => Ok(true),
        _ => Ok(false),
    }
}

/// Returns whether a string has these parts at these offsets.
fn has_parts(text: &str, pre: (&str, usize), build: (&str, usize)) -> bool {
    let Some(borrowed) = version::read_ref(text) else {
        return false;
    };
    borrowed.pre() == pre.0
        && borrowed.pre_offset() == pre.1
        && borrowed.build() == build.0
        && borrowed.build_offset() == build.1
}

/// Returns whether the bytes are a version in the dialects of the crate, of Cargo and of npm as
/// wanted.
fn are_versions(bytes: &[u8], wanted: [bool; 3]) -> bool {
    let [by_crate, by_cargo, by_npm] = wanted;
    version::read_ref_in(bytes, Grammar::Crate).is_some() == by_crate
        && version::read_ref_in(bytes, Grammar::Cargo).is_some() == by_cargo
        && version::read_ref_in(bytes, Grammar::Npm).is_some() == by_npm
}

/// Returns whether the identifiers of a string's parts are printed as these.
fn are_cut_as(text: &str, pre: &str, build: &str) -> Result<bool, AllocError> {
    let Some(borrowed) = version::read_ref(text) else {
        return Ok(false);
    };
    let identifiers = borrowed.pre_identifiers()?;
    let others = borrowed.build_identifiers()?;
    Ok(print_as(&identifiers, pre)? && print_as(&others, build)?)
}

/// Returns whether the identifiers, printed and joined by dots, are the string.
fn print_as(identifiers: &[Identifier], text: &str) -> Result<bool, AllocError> {
    let mut joined = String::new();
    for identifier in identifiers {
        if !joined.is_empty() {
            joined.fallible_push('.')?;
        }
        joined.fallible_push_str(identifier.fallible_to_string()?.as_str())?;
    }
    Ok(joined.as_str() == text)
}
