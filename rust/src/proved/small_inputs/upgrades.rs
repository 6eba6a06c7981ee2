// Made by tools/erase.py from crates/small_inputs/src/upgrades.rt; not edited by hand.
//! The call that raises a requirement.
#![cfg(feature = "std")]

use crate::rattle_std::prelude::*;
use crate::proved::small_inputs::checksum::Checksum;
use crate::proved::small_inputs::ranges::DIALECTS;
use crate::proved::small_inputs::sets::RULES;
use crate::proved::range_upgrades::upgrade::upgrade;
use crate::rattle_std::io;
use crate::rattle_std::io::Write;
use crate::proved::tool_ranges::meaning::Rules;

/// Versions to which requirements are raised. The last one is invalid.
const NEWER: [&[u8]; 4] = [b"1.2.3-a.2", b"1.10.0", b"2.0.0-0", b"1.2"];

/// Raises a requirement to some versions, in each dialect and by each rule.
pub fn add_raised(bytes: &[u8], sum: &mut Checksum) -> io::Result<()> {
    let Ok(text) = crate::rattle_std::str::from_utf8(bytes) else {
        return Ok(());
    };
    for dialect in DIALECTS {
        for pre_releases in RULES {
            let meaning = Rules {
                dialect,
                pre_releases,
            };
            for version in NEWER {
                match upgrade(text, version, meaning) {
                    Ok(Some(raised)) => write!(sum, "{raised};")?,
                    Ok(None) => sum.add(1),
                    Err(error) => write!(sum, "{error};")?,
                }
            }
        }
    }
    Ok(())
}
