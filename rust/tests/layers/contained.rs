//! Versions in a range, given as strings.

use crate::proved::semver_ranges::dialect::Dialect;
use crate::proved::tool_ranges::meaning::Rules;
use crate::proved::tool_ranges::satisfying::SatisfiesError;
use crate::proved::tool_ranges::version_range::VersionRange;
use crate::proved::version_sets::PreReleases;

/// Whether a range contains a string.
type Contained = Result<bool, SatisfiesError>;

/// The string is an invalid version.
const INVALID: Contained = Err(SatisfiesError::InvalidVersion);

/// A range of the crate in Cargo mode, a rule, a string, and whether the range contains it.
const TEXTS: [(&str, PreReleases, &[u8], Contained); 24] = [
    ("^1.2", PreReleases::Excluded, b"1.9.0", Ok(true)),
    ("^1.2", PreReleases::Excluded, b"1.9.0+b5.7", Ok(true)),
    ("^1.2", PreReleases::Excluded, b" 1.2.0\t", Ok(true)),
    ("^1.2", PreReleases::Excluded, b"1.1.9", Ok(false)),
    ("^1.2", PreReleases::Excluded, b"1.1.9+b5", Ok(false)),
    ("^1.2", PreReleases::Excluded, b"2.0.0", Ok(false)),
    ("^1.2", PreReleases::Excluded, b"0.9.9", Ok(false)),
    ("^1.2", PreReleases::Excluded, b"1.3.0-rc.1", Ok(false)),
    ("^1.2", PreReleases::Excluded, b"1.3.0-rc.1+b5", Ok(false)),
    ("^1.2", PreReleases::Excluded, b"1.2", INVALID),
    ("^1.2", PreReleases::Excluded, b"v1.2.3", INVALID),
    ("^1.2", PreReleases::Excluded, b"", INVALID),
    ("*", PreReleases::Excluded, b"18446744073709551615.0.0", Ok(true)),
    ("*", PreReleases::Excluded, b"18446744073709551616.0.0", INVALID),
    ("^1.2.3-b", PreReleases::ByDialect, b"1.2.3-rc+b5", Ok(true)),
    ("^1.2.3-b", PreReleases::ByDialect, b"1.2.3-a", Ok(false)),
    ("^1.2.3-b", PreReleases::ByDialect, b"1.3.0-rc", Ok(false)),
    ("^1.2.3-b", PreReleases::Included, b"1.3.0-rc.4", Ok(true)),
    ("^1.2.3-b", PreReleases::Included, b"2.0.0-0", Ok(false)),
    ("<0.1 || >=2", PreReleases::Included, b"0.0.9-x", Ok(true)),
    ("<0.1 || >=2", PreReleases::Included, b"1.0.0", Ok(false)),
    ("^1.2", PreReleases::Excluded, b"1.9.0\xff", INVALID),
    ("^1.2", PreReleases::Excluded, b"2.0.0+b5", Ok(false)),
    ("^1.2", PreReleases::Excluded, b" 1.9.0+b5\n", Ok(true)),
];

/// The ranges contain these strings.
pub fn contain() {
    for (range, pre_releases, text, wanted) in TEXTS {
        let dialect = Dialect::CrateCargo;
        let read = VersionRange::try_parse(range, Rules { dialect, pre_releases }).unwrap();
        assert_eq!(read.try_contains_bytes(text), wanted, "{range}: {}", text.escape_ascii());
    }
}
