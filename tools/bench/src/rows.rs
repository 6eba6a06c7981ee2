//! The rows whose texts are parsed one by one, and the calls that parse them.

use crate::calls::{
    here_borrowed, here_is_version, here_meets, here_owned, here_range, here_requirement, here_set,
    here_version, here_version_range, parser_is_range, parser_is_version, parser_range,
    parser_version, semver_is_range, semver_is_version, semver_meets, semver_owned, semver_range,
    semver_version, Call,
};
use crate::generation::Make;

/// A row: its texts, and the calls that are compared.
pub struct Row {
    pub title: &'static str,
    pub make: Make,
    pub here: Call,
    pub parser: Option<Call>,
    pub semver: Call,
}

/// The rows, in the order of the table.
pub const ROWS: [Row; 21] = [
    versions("plain versions", Make::Plain),
    versions("versions, plain and with identifiers", Make::Mixed),
    owned("`Version`, plain", Make::Plain),
    owned("`Version`, with identifiers", Make::Identified),
    owned("`Version`, plain and with identifiers", Make::Mixed),
    borrowed("`VersionRef`, plain", Make::Plain),
    borrowed("`VersionRef`, with identifiers", Make::Identified),
    borrowed("`VersionRef`, plain and with identifiers", Make::Mixed),
    Row {
        title: "`VersionRange` of one comparator, in Cargo's dialect",
        make: Make::Simples,
        here: here_version_range,
        parser: None,
        semver: semver_is_range,
    },
    versions("invalid versions", Make::Refused),
    Row {
        title: "invalid versions, only checked",
        make: Make::Refused,
        here: here_is_version,
        parser: Some(parser_is_version),
        semver: semver_is_version,
    },
    ranges("ranges of one term", Make::Simples),
    Row {
        title: "requirements of one comparator, in Cargo's dialect",
        make: Make::Simples,
        here: here_requirement,
        parser: None,
        semver: semver_is_range,
    },
    ranges("range sets", Make::Ranges),
    ranges("three and more terms or ranges", Make::Many),
    sets("ranges of one term, made into sets", Make::Simples),
    sets("range sets, made into sets", Make::Ranges),
    sets("three and more, made into sets", Make::Many),
    pairs("whether a version satisfies a requirement", Make::Asked),
    pairs("the same, with two comparators", Make::AskedTwo),
    pairs("the same, with a pre-release", Make::AskedPre),
];

impl Row {
    /// Returns whether its texts are invalid.
    pub fn is_refused(&self) -> bool {
        matches!(self.make, Make::Refused)
    }
}

const fn versions(title: &'static str, make: Make) -> Row {
    Row { title, make, here: here_version, parser: Some(parser_version), semver: semver_version }
}

/// Returns a row of versions of SemVer 2.0.0 that own their strings.
const fn owned(title: &'static str, make: Make) -> Row {
    Row { title, make, here: here_owned, parser: None, semver: semver_owned }
}

/// Returns a row of versions of SemVer 2.0.0 that borrow their strings here.
const fn borrowed(title: &'static str, make: Make) -> Row {
    Row { title, make, here: here_borrowed, parser: None, semver: semver_owned }
}

const fn ranges(title: &'static str, make: Make) -> Row {
    Row { title, make, here: here_range, parser: Some(parser_range), semver: semver_range }
}

/// Returns a row of texts that become sets of versions here, and are parsed by the crates.
const fn sets(title: &'static str, make: Make) -> Row {
    Row { title, make, here: here_set, parser: Some(parser_is_range), semver: semver_is_range }
}

/// Returns a row of requirements in Cargo's dialect, each with a version to match.
const fn pairs(title: &'static str, make: Make) -> Row {
    Row { title, make, here: here_meets, parser: None, semver: semver_meets }
}
