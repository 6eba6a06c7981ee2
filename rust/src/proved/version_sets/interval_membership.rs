// Made by tools/erase.py from crates/version_sets/src/interval_membership.rt; not edited by hand.
//! Whether a version is above a cut, and whether it is in an interval.

use crate::rattle_std::prelude::*;
use crate::proved::version_sets::cut::{Cut, Interval};
use crate::proved::semver_ranges::comparing::InRanges;
use crate::proved::semver_ranges::partial::Place;
use crate::proved::semver_ranges::table::Side;
use crate::proved::semver_texts::grammar::Digits;
use crate::proved::semver_texts::identifiers::{ByDigits, Joined};
use crate::proved::semver_texts::precedence::compare;
use crate::proved::semver_versions::version::VersionRef;
use crate::rattle_std::cmp::Ordering;

impl Cut<'_> {
    /// Returns whether the cut is below a version. `digits` says how numeric identifiers are read.
    #[inline(always)]
    pub fn is_below(&self, version: &VersionRef<'_>, digits: Digits) -> bool {
        match self.side {
            Side::Below => self.against_numbers(version).is_ge(),
            Side::At => self.against(version, digits).is_ge(),
            Side::Past => self.against(version, digits).is_gt(),
            Side::Above(Place::Major) => version.major() > self.numbers.major,
            Side::Above(Place::Minor) => {
                let minor = version.minor().cmp(&self.numbers.minor);
                version.major().cmp(&self.numbers.major).then(minor).is_gt()
            }
            Side::Above(Place::Patch) => self.against_numbers(version).is_gt(),
        }
    }

    /// Compares the numbers of a version with those of the cut.
    #[inline(always)]
    fn against_numbers(&self, version: &VersionRef<'_>) -> Ordering {
        let patch = version.patch().cmp(&self.numbers.patch);
        let minor = version.minor().cmp(&self.numbers.minor);
        version
            .major()
            .cmp(&self.numbers.major)
            .then(minor.then(patch))
    }

    /// Compares a version with the version of the cut by precedence.
    #[inline(always)]
    fn against(&self, version: &VersionRef<'_>, digits: Digits) -> Ordering {
        compare(
            (version.major(), version.minor(), version.patch()),
            version.compared_pre(),
            (self.numbers.major, self.numbers.minor, self.numbers.patch),
            ByDigits::of(Joined::of(self.pre, InRanges), digits),
        )
    }
}

impl Interval<'_> {
    /// Returns whether the interval contains a version. `digits` says how numeric identifiers are
    /// read.
    #[inline(always)]
    pub fn contains(&self, version: &VersionRef<'_>, digits: Digits) -> bool {
        let is_above = match &self.lower {
            Some(cut) => cut.is_below(version, digits),
            None => true,
        };
        is_above
            && match &self.upper {
                Some(cut) => !cut.is_below(version, digits),
                None => true,
            }
    }
}
