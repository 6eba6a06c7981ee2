//! Raises requirements.

use crate::proved::range_upgrades::upgrade as proved;
use crate::{Error, Rules};
use alloc::string::String;

/// Raises a requirement, so that it contains a newer version, and keeps how it is written. The result
/// is `None` if the range has a version at or above the newer one, so nothing is ever lowered.
///
/// ```
/// use semver_parser::{upgrade, Dialect};
///
/// let npm = |range, version| upgrade(range, version, Dialect::Npm);
/// assert_eq!(npm("^1.2", "1.9.0")?, None);
/// assert_eq!(npm("^1.2", "2.3.4")?.as_deref(), Some("^2.3"));
/// assert_eq!(npm("v1.x", "2.3.4")?.as_deref(), Some("v2.x"));
/// assert_eq!(npm("1.2 - 1.9", "2.3.4")?.as_deref(), Some("1.2 - 2.3"));
/// assert_eq!(npm("~1.2 || ^2.0.0", "3.1.0")?.as_deref(), Some("~1.2 || ^2.0.0 || ^3.1.0"));
/// assert_eq!(npm("^0.5 || >=1.2 <2", "2.3.4")?.as_deref(), Some("^0.5 || >=1.2 <3"));
///
/// let cargo = |range, version| upgrade(range, version, Dialect::Cargo);
/// assert_eq!(cargo(">= 1.2 , < 2.0.0", "2.3.0")?.as_deref(), Some(">= 1.2 , < 3.0.0"));
/// assert_eq!(cargo("^3", "2.0.0")?, None);
/// # Ok::<(), semver_parser::Error>(())
/// ```
///
/// The terms after the last `||` are raised, if their bounds allow no version at or above the newer
/// one:
///
/// - The version of a term without an operator or with `=`, `~`, `^` or `<=`, and the right version
///   of a hyphen range, becomes the newer one, with as many components, with its wildcards and its
///   `v`. The pre-release is written after three numbers, and build metadata is left out.
/// - If the result wouldn't contain the newer version then, and that is a pre-release, three numbers
///   are written where they mean the same: after `^`, after `~` instead of two, and in Cargo's
///   dialect without an operator.
/// - The version of `<` becomes the next one above the newer version. Its last number that isn't 0
///   says which number is raised by one, and what follows that is 0. A pre-release `0` is kept.
/// - `>=` and `>` are kept.
///
/// If the range has `||`, the raised terms are added as one more alternative instead, so that no
/// version is lost. They are raised in place only if all versions that change are upper bounds: those
/// of `<` and `<=`, and right versions of hyphen ranges. An upper bound with a pre-release isn't
/// raised in place either, except for `<` with the pre-release `0`. Everything else stays as it is.
///
/// # Errors
///
/// An [`Error`] for the version if it is invalid, otherwise for the range if that is invalid, and one
/// of the kind [`CannotUpgrade`](crate::ErrorKind::CannotUpgrade) if the raised range wouldn't contain
/// the version, such as `1.x` for 2.0.0-rc.1.
pub fn upgrade(
    range: &str,
    version: &str,
    rules: impl Into<Rules>,
) -> Result<Option<String>, Error> {
    let rules = rules.into();
    proved::upgrade(range, version.as_bytes(), rules)
        .map_err(|error| Error::from_upgrade(error, version, range, rules.dialect))
}
