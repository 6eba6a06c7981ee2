// Made by tools/erase.py from crates/library_tests/src/refused/ranges.rt; not edited by hand.
//! Functions that read a range set, and its clone.
#![cfg(feature = "std")]

use crate::rattle_std::prelude::*;
use super::Ending;
use super::fixed::Fixed;
use crate::proved::semver_parser::{Compat, RangeError, RangeSet};
use crate::rattle_std::fmt::Write as _;

const TEXT: &str = "^1.2.3-beta.4 || 2.x";

const PRINTED: &str = ">=1.2.3-beta.4 <2.0.0 || >=2.0.0 <3.0.0";

/// Reads two ranges in a mode.
pub fn parse(compat: Compat) -> Ending {
    parse_text(TEXT, PRINTED, compat)
}

/// Reads a string in a mode, whose set is printed as another string.
pub fn parse_text(text: &str, printed: &str, compat: Compat) -> Ending {
    ending(RangeSet::try_parse(text, compat), printed, compat)
}

/// Reads a string like `parse_text`, with exact bounds.
pub fn parse_exact_text(text: &str, printed: &str, compat: Compat) -> Ending {
    ending(RangeSet::parse_exact(text, compat), printed, compat)
}

fn ending(read: Result<RangeSet, RangeError>, printed: &str, compat: Compat) -> Ending {
    match read {
        Ok(set) => Ending::full_if(set.compat == compat && prints_as(&set, printed)),
        Err(RangeError::OutOfMemory) => Ending::Refused,
        Err(_) => Ending::Wrong,
    }
}

/// Reads a range set by `from_str`, in Cargo mode.
pub fn from_str() -> Ending {
    match RangeSet::try_from_str(TEXT) {
        Ok(set) => Ending::full_if(prints_as(&set, PRINTED)),
        Err(RangeError::OutOfMemory) => Ending::Refused,
        Err(_) => Ending::Wrong,
    }
}

/// Reads nine ranges, of which the last has more comparators than the others.
pub fn ninth_range() -> Ending {
    parse_text(
        "<1||<2||<3||<4||<5||<6||<7||<8||1 2 3",
        "<1.0.0 || <2.0.0 || <3.0.0 || <4.0.0 || <5.0.0 || <6.0.0 || <7.0.0 || <8.0.0 || \
         >=1.0.0 <2.0.0 >=2.0.0 <3.0.0 >=3.0.0 <4.0.0",
        Compat::Cargo,
    )
}

/// Strings that are invalid by their grammar or their numbers give an error without a request.
pub fn refused_texts() -> Ending {
    for compat in [Compat::Cargo, Compat::Npm] {
        let half_a_bar = RangeSet::try_parse("|", compat);
        let grammar_first = RangeSet::try_parse("99999999999999999999 ~", compat);
        let too_large = RangeSet::try_parse("99999999999999999999", compat);
        let bound = RangeSet::try_parse("<=18446744073709551615", compat);
        if !matches!(half_a_bar, Err(RangeError::NotARange))
            || !matches!(grammar_first, Err(RangeError::NotARange))
            || !matches!(too_large, Err(RangeError::NumberTooLarge))
            || !matches!(bound, Err(RangeError::NumberTooLarge)) {
            return Ending::Wrong;
        }
    }
    Ending::Full
}

/// 9,999 times two bars, and one more bar: 10,000 ranges and half of a separator.
const BARS: [u8; 19_999] = [b'|'; 19_999];

/// A long string with an error at its end gives the error without a request.
pub fn refused_at_the_end() -> Ending {
    let Ok(text) = crate::rattle_std::str::from_utf8(&BARS) else {
        return Ending::Wrong;
    };
    for compat in [Compat::Cargo, Compat::Npm] {
        if !matches!(
            RangeSet::try_parse(text, compat),
            Err(RangeError::NotARange)
        ) {
            return Ending::Wrong;
        }
    }
    Ending::Full
}

/// A clone equals its source, or is out of memory and leaves the source as it was.
pub fn clone() -> Ending {
    let Ok(set) = RangeSet::try_parse(TEXT, Compat::Npm) else {
        return Ending::Refused;
    };
    let cloned: Result<_, _> = set.fallible_clone();
    if !prints_as(&set, PRINTED) {
        return Ending::Wrong;
    }
    match cloned {
        Ok(clone) => Ending::full_if(clone == set),
        Err(_) => Ending::Refused,
    }
}

/// Returns whether the set is printed as the string.
fn prints_as(set: &RangeSet, text: &str) -> bool {
    let mut out = Fixed::new();
    write!(out, "{set}").is_ok() && out.as_bytes() == text.as_bytes()
}
