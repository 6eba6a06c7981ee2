//! The rules by which a range is read, and their names.

use crate::proved::semver_errors::names::{dialect_named, rule_named};
use crate::{Dialect, Error, PreReleases, Rules};
use core::str::FromStr;

impl Dialect {
    /// All dialects.
    ///
    /// ```
    /// use semver_parser::Dialect;
    ///
    /// let names = Dialect::ALL.map(Dialect::name);
    /// assert_eq!(names, ["cargo", "npm", "crate-cargo", "crate-npm"]);
    /// ```
    pub const ALL: [Dialect; 4] = [
        Dialect::Cargo,
        Dialect::Npm,
        Dialect::CrateCargo,
        Dialect::CrateNpm,
    ];

    /// Returns the rules of the dialect with this rule for pre-releases.
    ///
    /// ```
    /// use semver_parser::{satisfies, Dialect, PreReleases};
    ///
    /// let all = Dialect::Npm.with(PreReleases::Included);
    /// assert!(satisfies("1.3.0-rc.1", "^1.2", all)?);
    /// # Ok::<(), semver_parser::Error>(())
    /// ```
    #[must_use]
    pub const fn with(self, pre_releases: PreReleases) -> Rules {
        Rules { dialect: self, pre_releases }
    }
}

impl FromStr for Dialect {
    type Err = Error;

    /// Returns the dialect that has the name.
    fn from_str(name: &str) -> Result<Dialect, Error> {
        dialect_named(name)
    }
}

impl FromStr for PreReleases {
    type Err = Error;

    /// Returns the rule that has the name.
    fn from_str(name: &str) -> Result<PreReleases, Error> {
        rule_named(name)
    }
}
