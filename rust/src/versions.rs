//! Versions, with strings of their own or borrowed ones.

use crate::original::{out_of_memory, printed};
use crate::proved::repaired_strings::errors::Expected;
use crate::proved::semver_texts::grammar::Digits;
use crate::proved::semver_versions::version::read_ref_in;
use crate::{version, Dialect, Error, Version, VersionRef};
use alloc::string::String;
use core::str::FromStr;

impl Version {
    /// Returns a release.
    ///
    /// ```
    /// use semver_parser::Version;
    ///
    /// assert_eq!(Version::new(1, 2, 3).to_string(), "1.2.3");
    /// ```
    #[must_use]
    pub const fn new(major: u64, minor: u64, patch: u64) -> Version {
        Version { major, minor, patch, parts: None, pre_len: 0 }
    }

    /// Reads a version in a dialect.
    ///
    /// # Errors
    ///
    /// An [`Error`] of the kind [`InvalidVersion`](crate::ErrorKind::InvalidVersion).
    ///
    /// ```
    /// use semver_parser::{Dialect, Version};
    ///
    /// assert_eq!(Version::parse("v1.2.3", Dialect::Npm)?, Version::new(1, 2, 3));
    /// assert!(Version::parse("v1.2.3", Dialect::Cargo).is_err());
    /// # Ok::<(), semver_parser::Error>(())
    /// ```
    #[inline]
    pub fn parse(string: &str, dialect: Dialect) -> Result<Version, Error> {
        // By `VersionRef::parse`, this call and that one take a tenth longer.
        match read_ref_in(string.as_bytes(), dialect.grammar()) {
            Some(version) => version.owned().map_err(|_| Error::out_of_memory()),
            None => Err(Error::from_string(Expected::Version, dialect, string)),
        }
    }
}

impl<'t> VersionRef<'t> {
    /// Returns a release.
    ///
    /// ```
    /// use semver_parser::VersionRef;
    ///
    /// assert_eq!(VersionRef::new(1, 2, 3).to_string(), "1.2.3");
    /// ```
    #[must_use]
    pub const fn new(major: u64, minor: u64, patch: u64) -> VersionRef<'t> {
        let (pre, build, digits): (&[u8], &[u8], _) = (&[], &[], Digits::AnySize);
        VersionRef { major, minor, patch, pre, build, before_pre: 0, before_build: 0, digits }
    }

    /// Reads a version in a dialect. The result borrows the string. It allocates only if it returns
    /// an error.
    ///
    /// # Errors
    ///
    /// An [`Error`] of the kind [`InvalidVersion`](crate::ErrorKind::InvalidVersion).
    ///
    /// ```
    /// use semver_parser::{Dialect, VersionRef};
    ///
    /// let old = VersionRef::parse("1.2.3-rc.2", Dialect::Npm)?;
    /// let new = VersionRef::parse("v1.2.3-rc.10", Dialect::Npm)?;
    /// assert!(old < new);
    /// assert_eq!((new.major(), new.pre(), new.build()), (1, "rc.10", ""));
    /// # Ok::<(), semver_parser::Error>(())
    /// ```
    #[inline]
    pub fn parse(string: &'t str, dialect: Dialect) -> Result<VersionRef<'t>, Error> {
        read_ref_in(string.as_bytes(), dialect.grammar())
            .ok_or_else(|| Error::from_string(Expected::Version, dialect, string))
    }

    /// Returns the version with strings of its own.
    ///
    /// ```
    /// use semver_parser::{Dialect, VersionRef};
    ///
    /// let version = VersionRef::parse("1.2.3-rc.4", Dialect::Cargo)?.to_version();
    /// assert_eq!(version.to_string(), "1.2.3-rc.4");
    /// # Ok::<(), semver_parser::Error>(())
    /// ```
    #[must_use]
    pub fn to_version(&self) -> Version {
        self.owned().unwrap_or_else(|_| out_of_memory())
    }
}

impl FromStr for Version {
    type Err = Error;

    /// Returns `Version::parse(string, Dialect::Cargo)`: a version of SemVer 2.0.0.
    fn from_str(string: &str) -> Result<Version, Error> {
        Version::parse(string, Dialect::Cargo)
    }
}

impl TryFrom<&str> for Version {
    type Error = Error;

    fn try_from(string: &str) -> Result<Version, Error> {
        string.parse()
    }
}

impl TryFrom<String> for Version {
    type Error = Error;

    fn try_from(string: String) -> Result<Version, Error> {
        string.parse()
    }
}

impl From<Version> for String {
    fn from(version: Version) -> String {
        printed(version)
    }
}

impl From<VersionRef<'_>> for Version {
    /// Returns [`VersionRef::to_version`].
    fn from(version: VersionRef<'_>) -> Version {
        version.to_version()
    }
}

impl TryFrom<&version::Version> for Version {
    type Error = Error;

    /// Reads the version of `semver-parser` 0.10, as it is printed, by SemVer 2.0.0.
    fn try_from(original: &version::Version) -> Result<Version, Error> {
        printed(original).parse()
    }
}

impl From<&Version> for version::Version {
    /// Returns the plain data of `semver-parser` 0.10.
    fn from(version: &Version) -> version::Version {
        version.as_version_ref().version().unwrap_or_else(|_| out_of_memory())
    }
}
