// Made by tools/erase.py from crates/version_sets/src/rules.rt; not edited by hand.
//! The three rules for pre-releases, with their numbers and names.

use crate::rattle_std::prelude::*;
use crate::rattle_std::fmt;

/// Which pre-releases satisfy a range (page `docs::ranges`, "Pre-releases"). Releases count with
/// every rule.
///
/// ```
/// use semver_parser::{satisfies, Dialect, PreReleases};
///
/// let is_in = |rule| satisfies("1.3.0-rc.1", "^1.2", Dialect::Npm.with(rule));
/// assert!(!is_in(PreReleases::ByDialect)? && is_in(PreReleases::Included)?);
/// assert!(!is_in(PreReleases::Excluded)?);
/// # Ok::<(), semver_parser::Error>(())
/// ```
#[derive(Clone, Copy, PartialEq, Eq, Hash, Debug)]
#[non_exhaustive]
pub enum PreReleases {
    /// No pre-release.
    Excluded,
    /// The default rule of npm and of Cargo's `semver`: a pre-release that satisfies a range by
    /// precedence, if a term of the same range names its three numbers and a pre-release. 1.2.3-rc
    /// satisfies `^1.2.3-beta`, but neither `>=1.2.0` nor `^1.2.0 || =1.2.3-beta`.
    ByDialect,
    /// Every pre-release that satisfies a range by precedence: 1.3.0-rc satisfies `^1.2.0`.
    Included,
}

impl Default for PreReleases {
    /// Returns [`PreReleases::ByDialect`].
    fn default() -> PreReleases {
        PreReleases::ByDialect
    }
}

impl PreReleases {
    /// Returns the number of the rule in C, Python and JavaScript.
    #[must_use]
    pub(crate) fn number(self) -> i32 {
        match self {
            PreReleases::ByDialect => 0,
            PreReleases::Included => 1,
            PreReleases::Excluded => 2,
        }
    }

    /// Returns the rule with a number, or `None` if no rule has it.
    #[must_use]
    pub(crate) fn from_number(number: i32) -> Option<PreReleases> {
        match number {
            0 => Some(PreReleases::ByDialect),
            1 => Some(PreReleases::Included),
            2 => Some(PreReleases::Excluded),
            _ => None,
        }
    }

    /// Returns the name of the rule for programs.
    ///
    /// ```
    /// use semver_parser::PreReleases;
    ///
    /// assert_eq!(PreReleases::Included.name(), "included");
    /// ```
    #[must_use]
    pub fn name(self) -> &'static str {
        match self {
            PreReleases::ByDialect => "by-dialect",
            PreReleases::Included => "included",
            PreReleases::Excluded => "excluded",
        }
    }
}

impl fmt::Display for PreReleases {
    /// Writes the name.
    fn fmt(&self, f: &mut fmt::Formatter<'_>) -> fmt::Result {
        f.pad(self.name())
    }
}
