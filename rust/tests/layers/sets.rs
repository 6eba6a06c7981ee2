//! Sets of the versions that satisfy a range.

use crate::proved::semver_parser::version;
use crate::proved::semver_ranges::dialect::Dialect;
use crate::proved::tool_ranges::meaning::{self, Rules};
use crate::proved::version_sets::{PreReleases, VersionSet};

/// The highest numbers, as a string.
const LAST: &str = "18446744073709551615.18446744073709551615.18446744073709551615";

/// A range in Cargo mode, a rule, a version, and whether it is in the set.
const TEXTS: [(&str, PreReleases, &str, bool); 24] = [
    ("^1.2.3-beta.4", PreReleases::ByDialect, "1.9.0", true),
    ("^1.2.3-beta.4", PreReleases::Excluded, "1.2.3-rc", false),
    ("^1.2.3-beta.4", PreReleases::ByDialect, "1.2.3-rc", true),
    ("^1.2.3-beta.4", PreReleases::ByDialect, "1.3.0-rc", false),
    ("^1.2.3-beta.4", PreReleases::Included, "1.3.0-rc", true),
    ("^1.2.3-beta.4", PreReleases::Included, "2.0.0-alpha", false),
    (">=1.2.3 <1.2.4-rc", PreReleases::ByDialect, "1.2.4-a", true),
    ("=2.0.1-a || >=2.0.0", PreReleases::ByDialect, "2.0.1-a", true),
    ("=2.0.1-a || >=2.0.0", PreReleases::ByDialect, "2.0.1-b", false),
    ("1.2.3-a - 2", PreReleases::ByDialect, "1.2.3-b", true),
    ("1.2.3-a - 2", PreReleases::ByDialect, "2.0.0-b", false),
    (">1.2.3-a", PreReleases::Included, "1.2.3-a", false),
    (">1.2.3-a", PreReleases::Included, "1.2.3-a.0", true),
    (">1.2.3", PreReleases::Included, "1.2.4-0", true),
    (">1.2.3", PreReleases::Included, "1.2.3-z", false),
    ("=1.2.18446744073709551615", PreReleases::Included, "1.2.18446744073709551615", true),
    ("=1.2.18446744073709551615", PreReleases::Included, "1.3.0-0", false),
    ("<1.2.0 || 2.x || >=4.0.0", PreReleases::Excluded, "0.0.0", true),
    ("<1.2.0 || 2.x || >=4.0.0", PreReleases::Excluded, "2.9.9+b5", true),
    ("<1.2.0 || 2.x || >=4.0.0", PreReleases::Excluded, "3.0.0", false),
    ("<1.2.0 || 2.x || >=4.0.0", PreReleases::Excluded, LAST, true),
    (">2.0.0 <1.0.0", PreReleases::Included, "1.5.0", false),
    (
        "=18446744073709551615.18446744073709551615.18446744073709551615",
        PreReleases::ByDialect,
        LAST,
        true,
    ),
    (
        ">18446744073709551615.18446744073709551615.18446744073709551615",
        PreReleases::Included,
        LAST,
        false,
    ),
];

/// Ranges that contain the same versions, releases only.
const SAME: [(&str, &str); 3] = [
    (">=1.0.0 <2.0.0 || >=2.0.0 <3.0.0", ">=1.0.0 <3.0.0"),
    (">=1.0.0-rc", ">=1.0.0"),
    ("<0.0.0", ">18446744073709551615.18446744073709551615.18446744073709551615"),
];

/// Two ranges in Cargo mode, a rule, and the lowest versions that are lost, gained and shared if
/// the second replaces the first. An empty string means that there is none.
const COMPARED: [(&str, &str, PreReleases, [&str; 3]); 6] = [
    ("^1.2.0", ">=1.4.0", PreReleases::Excluded, ["1.2.0", "2.0.0", "1.4.0"]),
    ("^1.2", "~1.2", PreReleases::Excluded, ["1.3.0", "", "1.2.0"]),
    ("=1.0.0", "=2.0.0", PreReleases::Excluded, ["1.0.0", "2.0.0", ""]),
    (">1.2.3-a", ">=1.2.3-a", PreReleases::Included, ["", "1.2.3-a", "1.2.3-a.0"]),
    (">=1.2.3-rc", ">=1.2.3", PreReleases::ByDialect, ["1.2.3-rc", "", "1.2.3"]),
    ("<0.0.0", "<0.0.0-0", PreReleases::Included, ["0.0.0-0", "", ""]),
];

/// The sets contain these versions, and the sets of two ranges with the same versions are equal.
pub fn contain() {
    for (range, rule, text, wanted) in &TEXTS {
        let version = version::parse(text).unwrap();
        assert_eq!(set_of(range, *rule).contains(&version), *wanted, "{range}: {text}");
    }
    for (range, other) in &SAME {
        let (one, other) =
            (set_of(range, PreReleases::Excluded), set_of(other, PreReleases::Excluded));
        assert!(one == other, "{range}");
    }
}

/// Comparing the sets of two ranges gives these versions. An empty string is no version.
pub fn compare() {
    for (old, new, rule, wanted) in &COMPARED {
        let found = set_of(old, *rule).compare(&set_of(new, *rule)).unwrap();
        let shown = [found.lost, found.gained, found.shared]
            .map(|version| version.map_or(String::new(), |it| it.to_string()));
        assert_eq!(shown, *wanted, "{old}, {new}");
    }
}

/// Returns the set of a range.
fn set_of(range: &str, pre_releases: PreReleases) -> VersionSet {
    let dialect = Dialect::CrateCargo;
    meaning::read(Rules { dialect, pre_releases }, range).unwrap()
}
