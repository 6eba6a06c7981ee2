// Made by tools/erase.py from crates/semver_versions/src/version_order.rt; not edited by hand.
//! The order of borrowed versions, and how they are printed.

use crate::rattle_std::prelude::*;
use crate::proved::semver_versions::version_ref::VersionRef;
use crate::proved::semver_texts::grammar::Digits;
use crate::proved::semver_texts::identifiers::ByDigits;
use crate::proved::semver_texts::precedence::compare;
use crate::proved::semver_texts::version::Version;
use crate::rattle_std::cmp::Ordering;
use crate::rattle_std::fmt;
use crate::rattle_std::hash::{Hash, Hasher};

impl<'t> VersionRef<'t> {
    /// Compares two borrowed versions by precedence (SemVer 2.0.0, section 11). Build metadata is
    /// ignored. In whichever dialect a version was read, an identifier of digits is a number. It
    /// does not allocate.
    ///
    /// ```
    /// use semver_parser::{Dialect, VersionRef};
    ///
    /// let version = VersionRef::parse("1.2.3-rc.4+5aedf", Dialect::Npm)?;
    /// let other = VersionRef::parse("1.2.3-rc.11", Dialect::Npm)?;
    /// assert!(version.cmp_precedence(&other).is_lt());
    /// assert!(version.cmp_precedence(&VersionRef::parse("1.2.3-rc.4", Dialect::Npm)?).is_eq());
    /// # Ok::<(), semver_parser::Error>(())
    /// ```
    #[must_use]
    #[inline(always)]
    pub fn cmp_precedence(&self, other: &VersionRef<'_>) -> Ordering {
        compare(
            (self.major, self.minor, self.patch),
            self.pre_by(Digits::AnySize),
            (other.major, other.minor, other.patch),
            other.pre_by(Digits::AnySize),
        )
    }

    /// Returns the result of `cmp`. It is compiled separately, for speed: most versions differ in
    /// their numbers.
    #[inline(never)]
    pub(crate) fn cmp_parts(&self, other: &VersionRef<'_>) -> Ordering {
        let by_precedence = self.cmp_precedence(other);
        if by_precedence.is_ne() {
            return by_precedence;
        }
        let by_pre = self.pre.cmp(other.pre);
        if by_pre.is_ne() {
            return by_pre;
        }
        self.build.cmp(other.build)
    }
}

impl<'t> PartialEq for VersionRef<'t> {
    /// Returns whether both have the same numbers, pre-release and build metadata.
    fn eq(&self, other: &VersionRef<'t>) -> bool {
        self.major == other.major
            && self.minor == other.minor
            && self.patch == other.patch
            && self.pre == other.pre
            && self.build == other.build
    }
}

impl<'t> Eq for VersionRef<'t> {
}

impl<'t> Ord for VersionRef<'t> {
    /// Compares by precedence (SemVer 2.0.0, section 11), and versions of equal precedence by their
    /// pre-releases and then by their build metadata, as strings. It does not allocate.
    #[inline]
    fn cmp(&self, other: &VersionRef<'t>) -> Ordering {
        // Comparing tuples instead, sorting takes half again as many instructions.
        if self.major != other.major {
            return self.major.cmp(&other.major);
        }
        if self.minor != other.minor {
            return self.minor.cmp(&other.minor);
        }
        if self.patch != other.patch {
            return self.patch.cmp(&other.patch);
        }
        self.cmp_parts(other)
    }
}

impl<'t> PartialOrd for VersionRef<'t> {
    #[inline]
    fn partial_cmp(&self, other: &VersionRef<'t>) -> Option<Ordering> {
        Some(self.cmp(other))
    }
}

impl<'t> Hash for VersionRef<'t> {
    /// Hashes the numbers, the pre-release and the build metadata, which `==` compares.
    fn hash<H: Hasher>(&self, state: &mut H) {
        self.major.hash(state);
        self.minor.hash(state);
        self.patch.hash(state);
        self.pre.hash(state);
        self.build.hash(state);
    }
}

/// Compares two versions by precedence, where numeric identifiers of both are read as `digits`
/// says. It does not allocate.
#[must_use]
pub fn compare_by(digits: Digits, version: &Version, other: &Version) -> Ordering {
    compare(
        (version.major, version.minor, version.patch),
        ByDigits::of(version.pre.as_slice(), digits),
        (other.major, other.minor, other.patch),
        ByDigits::of(other.pre.as_slice(), digits),
    )
}

impl<'t> fmt::Display for VersionRef<'t> {
    /// Writes `major.minor.patch`, then `-` and the pre-release if there is one, and then `+` and
    /// the build metadata if there is any. It does not allocate, and its only error is the
    /// writer's.
    fn fmt(&self, f: &mut fmt::Formatter<'_>) -> fmt::Result {
        let (major, minor, patch) = (self.major, self.minor, self.patch);
        write!(f, "{major}.{minor}.{patch}")?;
        write_part(f, "-", self.pre())?;
        write_part(f, "+", self.build())
    }
}

impl<'t> fmt::Debug for VersionRef<'t> {
    /// Writes what `Display` writes, in quotation marks.
    fn fmt(&self, f: &mut fmt::Formatter<'_>) -> fmt::Result {
        write!(f, "\"{self}\"")
    }
}

/// Writes a part after its mark, if there is one.
fn write_part(f: &mut fmt::Formatter<'_>, mark: &str, part: &str) -> fmt::Result {
    if part.is_empty() {
        return Ok(());
    }
    write!(f, "{mark}{part}")
}
