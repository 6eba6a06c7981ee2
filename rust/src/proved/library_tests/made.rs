// Made by tools/erase.py from crates/library_tests/src/made.rt; not edited by hand.
//! Versions and sets that are made by hand, and what is read if they are printed.
#![cfg(feature = "std")]

use crate::rattle_std::prelude::*;
use crate::proved::semver_parser::version::{self, Version};
use crate::proved::semver_parser::{Comparator, Compat, Identifier, Op, Range, RangeSet};
use crate::rattle_std::AllocError;
use crate::rattle_std::io;

/// Prints versions whose only identifier has a string that may be an invalid identifier, reads
/// them, and writes the result.
pub fn write_versions(rt: &impl Print) -> io::Result<()> {
    for text in ["7", "01", "a--b", ""] {
        let made = version_of(text)?.fallible_to_string()?;
        let again = version::parse(made.as_str());
        crate::rattle_std::fallible_println!(rt; "{made}: {again:?}")?;
    }
    Ok(())
}

/// Returns the version 1.2.3 with one identifier that has the string.
fn version_of(text: &str) -> Result<Version, AllocError> {
    let kept = version::Identifier::AlphaNumeric(text.fallible_to_string()?);
    Ok(Version {
        major: 1,
        minor: 2,
        patch: 3,
        pre: crate::rattle_std::fallible_vec![kept]?,
        build: Vec::new(),
    })
}

/// Prints sets in Cargo mode, reads them, and writes the result: a set without ranges, one without
/// comparators, ranges of one comparator, and a set whose range is in another mode.
pub fn write_sets(rt: &impl Print) -> io::Result<()> {
    let (ranges, compat) = (Vec::new(), Compat::Cargo);
    write_read_back(rt, &RangeSet { ranges, compat })?;
    let no_comparators = Vec::new();
    write_read_back(
        rt,
        &of_one_range(no_comparators, Compat::Cargo)?,
    )?;
    for (op, numbers, text) in [
        (Op::Eq, (1, 2, 3), "007"),
        (Op::Eq, (1, 2, 3), "a.b"),
        (Op::Lte, (1, 0, 0), "-"),
        (Op::Eq, (1, 2, 3), "18446744073709551616"),
    ] {
        let kept = Identifier::AlphaNumeric(text.fallible_to_string()?);
        let comparator_set = comparators(op, numbers, crate::rattle_std::fallible_vec![kept]?)?;
        write_read_back(
            rt,
            &of_one_range(comparator_set, Compat::Cargo)?,
        )?;
    }
    let comparator_set = comparators(Op::Gt, (1, 0, 0), Vec::new())?;
    write_read_back(
        rt,
        &of_one_range(comparator_set, Compat::Npm)?,
    )
}

/// Returns a list of one comparator, with an operator, three numbers and a pre-release.
fn comparators(
    op: Op,
    (major, minor, patch): (u64, u64, u64),
    pre: Vec<Identifier>,
) -> Result<Vec<Comparator>, AllocError> {
    let comparator = Comparator {
        op,
        major,
        minor,
        patch,
        pre,
    };
    Ok(crate::rattle_std::fallible_vec![comparator]?)
}

/// Returns a set in Cargo mode of one range in a mode of its own.
fn of_one_range(
    comparator_set: Vec<Comparator>,
    compat: Compat,
) -> Result<RangeSet, AllocError> {
    let range = Range {
        comparator_set,
        compat,
    };
    Ok(RangeSet {
        ranges: crate::rattle_std::fallible_vec![range]?,
        compat: Compat::Cargo,
    })
}

/// Writes how a set is printed, what this is read as in the set's own mode, and whether that is the
/// set.
fn write_read_back(rt: &impl Print, set: &RangeSet) -> io::Result<()> {
    let printed = set.fallible_to_string()?;
    let again = RangeSet::try_parse(printed.as_str(), set.compat);
    let is_itself = again.as_ref().is_ok_and(|again| again == set);
    crate::rattle_std::fallible_println!(rt; "{printed}: {again:?}, itself: {is_itself}")?;
    let exact = RangeSet::parse_exact(printed.as_str(), set.compat);
    if exact != again {
        crate::rattle_std::fallible_println!(rt; "{printed}: with exact bounds {exact:?}")?;
    }
    Ok(())
}
