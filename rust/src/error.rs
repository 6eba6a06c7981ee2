//! What [`Error`] has in Rust only: the end of the process if memory runs out, and conversions.

use crate::original::{out_of_memory, printed};
use crate::{parser, Error};
use alloc::string::String;

impl Error {
    /// Returns a string that is valid in the dialect, and that may have been meant, or `None` if
    /// none is known. It repairs slips such as `=>`, leading zeros, a `v`, or commas of another
    /// dialect, one error after the other, and changes nothing but the spans of these errors.
    ///
    /// ```
    /// use semver_parser::{Dialect, Version, VersionRange};
    ///
    /// let range = |text, dialect| VersionRange::parse(text, dialect).unwrap_err().suggestion();
    /// assert_eq!(range("=>1.02", Dialect::Cargo).as_deref(), Some(">=1.2"));
    /// assert_eq!(range(">=1.2, <2", Dialect::Npm).as_deref(), Some(">=1.2 <2"));
    /// assert_eq!(range("latest", Dialect::Npm), None);
    /// let version = Version::parse("v1.2", Dialect::Cargo).unwrap_err().suggestion();
    /// assert_eq!(version.as_deref(), Some("1.2.0"));
    /// ```
    #[must_use]
    pub fn suggestion(&self) -> Option<String> {
        self.try_suggestion().unwrap_or_else(|_| out_of_memory())
    }
}

impl From<parser::Error<'_>> for Error {
    /// Converts the error of [`version::parse`](crate::version::parse), which doesn't have the
    /// string.
    fn from(error: parser::Error<'_>) -> Error {
        Error::from_parser(&error)
    }
}

impl From<Error> for String {
    fn from(error: Error) -> String {
        printed(error)
    }
}

#[cfg(feature = "std")]
impl std::error::Error for Error {}
