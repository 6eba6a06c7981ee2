// Made by tools/erase.py from crates/semver_errors/src/names.rt; not edited by hand.
//! Dialects and rules for pre-releases by their names.

use crate::rattle_std::prelude::*;
use crate::proved::semver_errors::error::Error;
use crate::proved::semver_ranges::dialect::Dialect;
use crate::proved::version_sets::PreReleases;

/// Returns the dialect with a name, or an error if there is none.
pub fn dialect_named(name: &str) -> Result<Dialect, Error> {
    match name {
        "cargo" => Ok(Dialect::Cargo),
        "npm" => Ok(Dialect::Npm),
        "crate-cargo" => Ok(Dialect::CrateCargo),
        "crate-npm" => Ok(Dialect::CrateNpm),
        _ => Err(Error::unknown_name(name, "cargo, npm, crate-cargo or crate-npm")),
    }
}

/// Returns the rule for pre-releases with a name, or an error if there is none.
pub fn rule_named(name: &str) -> Result<PreReleases, Error> {
    match name {
        "by-dialect" => Ok(PreReleases::ByDialect),
        "included" => Ok(PreReleases::Included),
        "excluded" => Ok(PreReleases::Excluded),
        _ => Err(Error::unknown_name(name, "by-dialect, included or excluded")),
    }
}
