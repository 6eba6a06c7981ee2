// Made by tools/erase.py from crates/semver_texts/src/npm_limits.rt; not edited by hand.
//! npm's limits, with the names of node-semver 7. The other dialects have none of them.

use crate::rattle_std::prelude::*;
/// JavaScript's `Number.MAX_SAFE_INTEGER`, 2^53 - 1. No number of a version or range may be above
/// it.
pub const MAX_SAFE_INTEGER: u64 = 9_007_199_254_740_991;

/// The maximum number of characters of a version.
pub const MAX_LENGTH: usize = 256;

/// The maximum number of characters of an identifier of build metadata, which is what a version
/// leaves for it after `0.0.0+`. No other limit of a length is smaller.
pub const MAX_SAFE_BUILD_LENGTH: usize = MAX_LENGTH - 6;
