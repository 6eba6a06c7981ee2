// Made by tools/erase.py from crates/semver_texts/src/large_number.rt; not edited by hand.
//! Numbers of 2^64 or more, by their digits.

use crate::rattle_std::prelude::*;
use crate::rattle_std::cmp::Ordering;

/// A number of 2^64 or more, as its digits. The first digit isn't 0.
#[derive(Clone, Copy)]
pub struct LargeNumber<'a> {
    digits: &'a [u8],
}

impl<'a> LargeNumber<'a> {
    /// Returns the number that the digits write.
    #[inline(always)]
    pub(crate) fn of(digits: &'a [u8]) -> LargeNumber<'a> {
        LargeNumber { digits }
    }

    /// Compares two large numbers. The one with more digits is greater; if they have equally many,
    /// the first digits that differ decide. It does not allocate.
    #[inline(always)]
    pub fn compare(&self, other: &LargeNumber<'_>) -> Ordering {
        let by_length = self.digits.len().cmp(&other.digits.len());
        if by_length.is_ne() {
            return by_length;
        }
        self.digits.cmp(other.digits)
    }
}
