//! A requirement that is raised.

use super::Ending;
use crate::proved::range_upgrades::upgrade::{upgrade, UpgradeError};
use crate::proved::semver_ranges::dialect::Dialect;
use crate::proved::tool_ranges::meaning::Rules;
use crate::proved::version_sets::PreReleases;

const NPM: Rules = Rules { dialect: Dialect::Npm, pre_releases: PreReleases::ByDialect };

/// Raises a range to a pre-release, by one more alternative.
pub fn raised() -> Ending {
    match upgrade("^1.2.3 || ~2.0", b"3.1.0-rc.4", NPM) {
        Ok(Some(new)) => Ending::full_if(new == "^1.2.3 || ~2.0 || ~3.1.0-rc.4"),
        Err(UpgradeError::OutOfMemory) => Ending::Refused,
        _ => Ending::Wrong,
    }
}
