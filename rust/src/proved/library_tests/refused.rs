// Made by tools/erase.py from crates/library_tests/src/refused.rt; not edited by hand.
//! Calls the functions that allocate, and checks that each call returns its result or out of
//! memory, and then leaves everything as its contract says. With enough memory every call has to
//! return its result. Otherwise the one request that fails has to be made by exactly one call,
//! which is named.
#![cfg(feature = "std")]

use crate::rattle_std::prelude::*;
mod fixed;
mod identifiers;
mod parsers;
mod ranges;
mod reports;
mod versions;

use crate::proved::semver_parser::Compat;
use crate::rattle_std::io;

/// How a call ended.
#[derive(Clone, Copy, PartialEq, Eq)]
enum Ending {
    /// With its result.
    Full,
    /// Out of memory, and what its contract says about this holds.
    Refused,
    /// In any other way.
    Wrong,
}

impl Ending {
    /// Returns `Full` if the result is right, and otherwise `Wrong`.
    fn full_if(is_right: bool) -> Ending {
        if is_right {
            Ending::Full
        } else {
            Ending::Wrong
        }
    }

    /// Returns `Refused` if what the contract says holds, and otherwise `Wrong`.
    fn refused_if(is_kept: bool) -> Ending {
        if is_kept {
            Ending::Refused
        } else {
            Ending::Wrong
        }
    }
}

/// After this number of requests the next one fails.
const FIRST_REFUSED: u32 = 999;

/// Makes a number of requests, and then all calls, and writes how they ended.
pub fn write_calls(rt: &HostRuntime, requests: u32) -> io::Result<()> {
    for _ in 0..requests {
        let _request = Vec::fallible_from_slice(b"1");
    }
    if requests == FIRST_REFUSED {
        tell(rt, &of_long_texts())?;
    }
    tell(rt, &of_versions())?;
    tell(rt, &of_range_sets())?;
    tell(rt, &of_errors_copies_and_reports())?;
    rt.println("done")
}

/// Names the calls that ran out of memory, and those that went wrong.
fn tell(rt: &impl Print, endings: &[(&'static str, Ending)]) -> io::Result<()> {
    for (call, ending) in endings {
        match ending {
            Ending::Full => {}
            Ending::Refused => crate::rattle_std::fallible_println!(rt; "refused: {call}")?,
            Ending::Wrong => crate::rattle_std::fallible_println!(rt; "wrong: {call}")?,
        }
    }
    Ok(())
}

/// Returns how each call for tokens, versions and their identifiers ends.
fn of_versions() -> [(&'static str, Ending); 15] {
    [
        ("identifier", parsers::identifier()),
        ("parser_version", parsers::version()),
        ("tail", parsers::tail()),
        ("bad_character", parsers::tail_before_a_bad_character()),
        ("tail_of_nothing", parsers::tail_of_nothing()),
        ("plain_versions", versions::without_identifiers()),
        (
            "version_with_identifiers",
            versions::with_identifiers(),
        ),
        ("version_with_numbers", versions::with_numbers()),
        (
            "read_without_identifiers",
            versions::read_without_identifiers(),
        ),
        ("version_read", versions::read_with_identifiers()),
        ("more_input", versions::more_input()),
        ("version_clone", versions::clone()),
        ("concat_of_a_number", identifiers::concat_of_a_number()),
        ("concat_of_a_text", identifiers::concat_of_a_text()),
        ("error_text", identifiers::error_text()),
    ]
}

/// Returns how each call that reads a range set in the crate's dialect ends.
fn of_range_sets() -> [(&'static str, Ending); 11] {
    [
        (
            "one_simple",
            ranges::parse_text("^1.2.3", ">=1.2.3 <2.0.0", Compat::Npm),
        ),
        (
            "two_simples",
            ranges::parse_text(
                ">=1.2.3 <2.0.0-rc.1",
                ">=1.2.3 <2.0.0-rc.1",
                Compat::Npm,
            ),
        ),
        (
            "hyphen_range",
            ranges::parse_text("1.2 - 2", ">=1.2.0 <3.0.0", Compat::Npm),
        ),
        (
            "three_simples",
            ranges::parse_text(
                ">1 <3 ~2",
                ">1.0.0 <3.0.0 >=2.0.0 <3.0.0",
                Compat::Npm,
            ),
        ),
        (
            "range_set_in_cargo_mode",
            ranges::parse(Compat::Cargo),
        ),
        ("range_set_in_npm_mode", ranges::parse(Compat::Npm)),
        ("range_set_from_str", ranges::from_str()),
        (
            "longer_second_range",
            ranges::parse_text(
                "1 || 2 3 4",
                ">=1.0.0 <2.0.0 || >=2.0.0 <3.0.0 >=3.0.0 <4.0.0 >=4.0.0 <5.0.0",
                Compat::Npm,
            ),
        ),
        ("ninth_range", ranges::ninth_range()),
        (
            "exact_simple",
            ranges::parse_exact_text(
                "^1.2.3-beta.4",
                ">=1.2.3-beta.4 <2.0.0-0",
                Compat::Npm,
            ),
        ),
        (
            "exact_range_set",
            ranges::parse_exact_text(
                "1.2 - 2 || <2 ~3.4",
                ">=1.2.0 <3.0.0-0 || <2.0.0 >=3.4.0 <3.5.0-0",
                Compat::Cargo,
            ),
        ),
    ]
}

/// Returns how each call for invalid ranges, copies of sets and reports ends.
fn of_errors_copies_and_reports() -> [(&'static str, Ending); 4] {
    [
        ("refused_range_texts", ranges::refused_texts()),
        ("range_set_clone", ranges::clone()),
        ("report", reports::report()),
        ("report_of_errors", reports::report_of_errors()),
    ]
}

/// Returns how calls for long strings end that make no request. They take long, and are made once.
fn of_long_texts() -> [(&'static str, Ending); 1] {
    [("refused_at_the_end", ranges::refused_at_the_end())]
}
