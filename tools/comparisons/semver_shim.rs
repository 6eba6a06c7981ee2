//! The names of the crate `semver` that its tests use, implemented by semver-parser-proved with
//! `Dialect::Cargo`. The tests compare the calls of that crate; nothing is decided here.

use semver_parser::{comparators, satisfies, Dialect, RangeSet, VersionRange, VersionRef};
use std::cmp::Ordering;
use std::fmt::{self, Display};
use std::hash::{Hash, Hasher};

const CARGO: Dialect = Dialect::Cargo;

/// An error: the sentence of its reason.
#[derive(Debug)]
pub struct Error(String);

impl From<semver_parser::Error> for Error {
    fn from(error: semver_parser::Error) -> Error {
        Error(error.reason().unwrap().sentence().to_string())
    }
}

impl Display for Error {
    fn fmt(&self, f: &mut fmt::Formatter<'_>) -> fmt::Result {
        f.write_str(&self.0)
    }
}

/// The part of a version after a sign, as a string.
macro_rules! part {
    ($name:ident, $sign:literal) => {
        #[derive(Clone, PartialEq, Eq, Debug)]
        pub struct $name(String);

        impl $name {
            pub const EMPTY: $name = $name(String::new());

            pub fn new(text: &str) -> Result<$name, Error> {
                if !text.is_empty() {
                    Version::parse(&format!(concat!("0.0.0", $sign, "{}"), text))?;
                }
                Ok($name(text.to_string()))
            }

            pub fn as_str(&self) -> &str {
                &self.0
            }
        }

        impl std::ops::Deref for $name {
            type Target = str;

            fn deref(&self) -> &str {
                &self.0
            }
        }
    };
}

part!(Prerelease, "-");
part!(BuildMetadata, "+");

#[derive(Clone, PartialEq, Eq, Debug)]
pub struct Version {
    pub major: u64,
    pub minor: u64,
    pub patch: u64,
    pub pre: Prerelease,
    pub build: BuildMetadata,
}

impl Version {
    pub fn new(major: u64, minor: u64, patch: u64) -> Version {
        Version { major, minor, patch, pre: Prerelease::EMPTY, build: BuildMetadata::EMPTY }
    }

    pub fn parse(text: &str) -> Result<Version, Error> {
        let read = VersionRef::parse(text, CARGO)?;
        Ok(Version {
            major: read.major(),
            minor: read.minor(),
            patch: read.patch(),
            pre: Prerelease(read.pre().to_string()),
            build: BuildMetadata(read.build().to_string()),
        })
    }
}

impl Display for Version {
    fn fmt(&self, f: &mut fmt::Formatter<'_>) -> fmt::Result {
        let Version { major, minor, patch, pre, build } = self;
        let sign = |sign, part: &str| if part.is_empty() { "" } else { sign };
        let (minus, plus) = (sign("-", pre), sign("+", build));
        f.pad(&format!("{major}.{minor}.{patch}{minus}{}{plus}{}", pre.0, build.0))
    }
}

impl PartialOrd for Version {
    fn partial_cmp(&self, other: &Version) -> Option<Ordering> {
        let (one, two) = (self.to_string(), other.to_string());
        let other = VersionRef::parse(&two, CARGO).ok()?;
        Some(VersionRef::parse(&one, CARGO).ok()?.cmp_precedence(&other))
    }
}

/// A requirement, as its text.
#[derive(Clone, Debug)]
pub struct VersionReq(std::borrow::Cow<'static, str>);

impl VersionReq {
    pub const STAR: VersionReq = VersionReq(std::borrow::Cow::Borrowed("*"));

    pub fn parse(text: &str) -> Result<VersionReq, Error> {
        VersionRange::parse(text, CARGO)?;
        Ok(VersionReq(text.to_string().into()))
    }

    pub fn matches(&self, version: &Version) -> bool {
        satisfies(&version.to_string(), &self.0, CARGO).unwrap()
    }

    fn comparators(&self) -> RangeSet {
        comparators(&self.0, CARGO).unwrap()
    }
}

impl Default for VersionReq {
    fn default() -> VersionReq {
        VersionReq::STAR
    }
}

impl Display for VersionReq {
    fn fmt(&self, f: &mut fmt::Formatter<'_>) -> fmt::Result {
        self.comparators().fmt(f)
    }
}

impl PartialEq for VersionReq {
    fn eq(&self, other: &VersionReq) -> bool {
        self.comparators() == other.comparators()
    }
}

impl Hash for VersionReq {
    fn hash<H: Hasher>(&self, state: &mut H) {
        self.comparators().hash(state);
    }
}

pub use semver_parser::{Comparator, Op};
