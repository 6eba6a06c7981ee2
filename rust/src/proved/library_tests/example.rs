// Made by tools/erase.py from crates/library_tests/src/example.rt; not edited by hand.
//! The example of README.md.
#![cfg(feature = "std")]

use crate::rattle_std::prelude::*;
use crate::proved::semver_parser::{Compat, RangeError, RangeSet};

pub fn write_operators(rt: &impl Print) -> Result<(), RangeError> {
    let set = RangeSet::parse_exact("^1.2.3-rc || 3.x", Compat::Cargo)?;
    for range in set.ranges.iter() {
        for comparator in range.comparator_set.iter() {
            let _ = crate::rattle_std::fallible_println!(rt; "{} {}", comparator.op, comparator.major);
        }
    }
    Ok(())
}
