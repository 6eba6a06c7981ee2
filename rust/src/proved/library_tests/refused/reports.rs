// Made by tools/erase.py from crates/library_tests/src/refused/reports.rt; not edited by hand.
//! The report.
#![cfg(feature = "std")]

use crate::rattle_std::prelude::*;
use super::Ending;
use super::fixed::Fixed;
use crate::proved::semver_parser::report;

/// Makes a report. A line whose value can't be read or printed says that it is out of memory, and
/// the report goes on.
pub fn report() -> Ending {
    let mut out = Fixed::new();
    let ran = report::run("1.2.3", &mut out);
    let written = out.as_bytes();
    let whole = b"version: 1.2.3\ncargo: >=1.2.3 <2.0.0\nnpm: =1.2.3\n";
    let version = b"version: out-of-memory\ncargo: >=1.2.3 <2.0.0\nnpm: =1.2.3\n";
    let cargo = b"version: 1.2.3\ncargo: out-of-memory\nnpm: =1.2.3\n";
    let npm = b"version: 1.2.3\ncargo: >=1.2.3 <2.0.0\nnpm: out-of-memory\n";
    if written == whole.as_slice() {
        Ending::full_if(matches!(ran, Ok(true)))
    } else if written == version.as_slice()
        || written == cargo.as_slice()
        || written == npm.as_slice() {
        Ending::refused_if(matches!(ran, Ok(true)))
    } else {
        Ending::Wrong
    }
}

/// If each line has an error that doesn't allocate, no request is made.
pub fn report_of_errors() -> Ending {
    let mut out = Fixed::new();
    let ran = report::run("/", &mut out);
    let whole = b"version: unexpected-char\ncargo: not-a-range\nnpm: not-a-range\n";
    Ending::full_if(matches!(ran, Ok(false)) && out.as_bytes() == whole.as_slice())
}
