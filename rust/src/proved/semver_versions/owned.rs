// Made by tools/erase.py from crates/semver_versions/src/owned.rt; not edited by hand.
//! Versions that own their strings.

use crate::rattle_std::prelude::*;
use crate::proved::semver_versions::version_ref::VersionRef;
use crate::proved::semver_texts::grammar::Digits;
use crate::proved::semver_texts::version;
use crate::rattle_std::AllocError;
use crate::rattle_std::boxed::BoxedSlice;
use crate::rattle_std::cmp::Ordering;
use crate::rattle_std::fmt;
use crate::rattle_std::hash::{Hash, Hasher};

/// A version with strings of its own. Conversions from strings read SemVer 2.0.0, as Cargo does;
/// [`Version::parse`] reads any dialect. To read many versions, [`VersionRef`] doesn't allocate.
///
/// `<` is SemVer's order. Versions of equal precedence are ordered by their strings, so that `==`
/// and `Hash`, which take the build metadata into account, agree with it.
///
/// ```
/// use semver_parser::Version;
///
/// let version: Version = "1.2.3-rc.4+5aedf".parse()?;
/// assert_eq!((version.major(), version.minor(), version.patch()), (1, 2, 3));
/// assert_eq!((version.pre(), version.build()), ("rc.4", "5aedf"));
/// assert!(version < Version::new(1, 2, 3));
/// # Ok::<(), semver_parser::Error>(())
/// ```
#[derive(Clone)]
pub struct Version {
    pub(crate) major: u64,
    pub(crate) minor: u64,
    pub(crate) patch: u64,
    /// The bytes of the pre-release, and then those of the build metadata, if there are any. They
    /// aren't a `String`, whose bytes would have to be checked for UTF-8 when a version is read, and
    /// no `Vec`, which would make versions longer and so slower to sort.
    pub(crate) parts: Option<BoxedSlice<u8>>,
    pub(crate) pre_len: usize,
}

impl Version {
    /// Returns the first number.
    ///
    /// ```
    /// assert_eq!(semver_parser::Version::new(1, 2, 3).major(), 1);
    /// ```
    #[must_use]
    #[inline(always)]
    pub fn major(&self) -> u64 {
        self.major
    }

    /// Returns the second number.
    ///
    /// ```
    /// assert_eq!(semver_parser::Version::new(1, 2, 3).minor(), 2);
    /// ```
    #[must_use]
    #[inline(always)]
    pub fn minor(&self) -> u64 {
        self.minor
    }

    /// Returns the third number.
    ///
    /// ```
    /// assert_eq!(semver_parser::Version::new(1, 2, 3).patch(), 3);
    /// ```
    #[must_use]
    #[inline(always)]
    pub fn patch(&self) -> u64 {
        self.patch
    }

    /// Returns the pre-release without its `-`, or an empty string if there is none.
    ///
    /// ```
    /// let version: semver_parser::Version = "1.2.3-rc.4+5aedf".parse()?;
    /// assert_eq!(version.pre(), "rc.4");
    /// # Ok::<(), semver_parser::Error>(())
    /// ```
    #[must_use]
    pub fn pre(&self) -> &str {
        self.as_version_ref().pre()
    }

    /// Returns the build metadata without its `+`, or an empty string if there is none.
    ///
    /// ```
    /// let version: semver_parser::Version = "1.2.3-rc.4+5aedf".parse()?;
    /// assert_eq!(version.build(), "5aedf");
    /// # Ok::<(), semver_parser::Error>(())
    /// ```
    #[must_use]
    pub fn build(&self) -> &str {
        self.as_version_ref().build()
    }

    /// Returns whether the version has a pre-release.
    ///
    /// ```
    /// assert!(!semver_parser::Version::new(1, 2, 3).is_pre_release());
    /// ```
    #[must_use]
    pub fn is_pre_release(&self) -> bool {
        self.pre_len > 0
    }

    /// Returns a version of 0.10 that has no build metadata, as a version of this type. `Err` means
    /// out of memory.
    pub(crate) fn of_plain(original: &version::Version) -> Result<Version, AllocError> {
        let (major, minor, patch) = (original.major, original.minor, original.patch);
        let printed = original.fallible_to_string()?;
        let borrowed = VersionRef {
            major,
            minor,
            patch,
            pre: printed_pre(&printed),
            build: &[],
            before_pre: 0,
            before_build: 0,
            digits: Digits::AnySize,
        };
        borrowed.owned()
    }

    /// Compares two versions by precedence (SemVer 2.0.0, section 11). Build metadata is ignored.
    ///
    /// ```
    /// use semver_parser::Version;
    ///
    /// let (one, other): (Version, Version) = ("1.0.0+a".parse()?, "1.0.0+b".parse()?);
    /// assert!(one.cmp_precedence(&other).is_eq() && one < other);
    /// # Ok::<(), semver_parser::Error>(())
    /// ```
    #[must_use]
    pub fn cmp_precedence(&self, other: &Version) -> Ordering {
        self.as_version_ref()
            .cmp_precedence(&other.as_version_ref())
    }

    /// Returns the result of `cmp`. It is compiled separately, for speed: most versions differ in
    /// their numbers.
    #[inline(never)]
    fn cmp_parts(&self, other: &Version) -> Ordering {
        self.as_version_ref().cmp_parts(&other.as_version_ref())
    }

    /// Returns the version as one that borrows this one's strings.
    ///
    /// ```
    /// use semver_parser::{Version, VersionRef};
    ///
    /// assert_eq!(Version::new(1, 2, 3).as_version_ref(), VersionRef::new(1, 2, 3));
    /// ```
    #[must_use]
    #[inline(always)]
    pub fn as_version_ref(&self) -> VersionRef<'_> {
        let parts: &[u8] = match &self.parts {
            Some(parts) => parts,
            None => &[],
        };
        let (pre, build) = parts.split_at(self.pre_len);
        VersionRef {
            major: self.major,
            minor: self.minor,
            patch: self.patch,
            pre,
            build,
            before_pre: 0,
            before_build: 0,
            digits: Digits::AnySize,
        }
    }
}

impl PartialEq for Version {
    /// Returns whether both have the same numbers, pre-release and build metadata.
    fn eq(&self, other: &Version) -> bool {
        self.as_version_ref() == other.as_version_ref()
    }
}

impl Eq for Version {
}

impl Ord for Version {
    /// Compares by precedence (SemVer 2.0.0, section 11), and versions of equal precedence by their
    /// pre-releases and then by their build metadata, as strings. It does not allocate.
    #[inline]
    fn cmp(&self, other: &Version) -> Ordering {
        // Comparing tuples instead, sorting takes half again as many instructions.
        if self.major != other.major {
            return self.major.cmp(&other.major);
        }
        if self.minor != other.minor {
            return self.minor.cmp(&other.minor);
        }
        if self.patch != other.patch {
            return self.patch.cmp(&other.patch);
        }
        self.cmp_parts(other)
    }
}

impl PartialOrd for Version {
    #[inline]
    fn partial_cmp(&self, other: &Version) -> Option<Ordering> {
        Some(self.cmp(other))
    }
}

impl<'t> From<&'t Version> for VersionRef<'t> {
    /// Returns [`Version::as_version_ref`].
    fn from(version: &'t Version) -> VersionRef<'t> {
        version.as_version_ref()
    }
}

impl<'t> VersionRef<'t> {
    /// Returns the version with strings of its own. It allocates once, if there is a pre-release or
    /// build metadata. `Err` means out of memory.
    #[inline(always)]
    pub(crate) fn owned(&self) -> Result<Version, AllocError> {
        Ok(Version {
            major: self.major,
            minor: self.minor,
            patch: self.patch,
            parts: self.joined()?,
            pre_len: self.pre.len(),
        })
    }

    /// Returns the bytes of the pre-release, and then those of the build metadata.
    #[inline(always)]
    fn joined(&self) -> Result<Option<BoxedSlice<u8>>, AllocError> {
        if self.pre.is_empty() && self.build.is_empty() {
            return Ok(None);
        }
        Ok(Some(joined(self.pre, self.build)?))
    }
}

/// Returns the pre-release in the string of a version without build metadata.
fn printed_pre(printed: &str) -> &[u8] {
    match printed.split_once('-') {
        Some((_, pre)) => pre.as_bytes(),
        None => &[],
    }
}

/// Returns the bytes of both slices in one list. It is compiled separately, for speed: most
/// versions have no identifiers.
#[inline(never)]
fn joined(first: &[u8], second: &[u8]) -> Result<BoxedSlice<u8>, AllocError> {
    let mut bytes = Vec::fallible_with_capacity(first.len().saturating_add(second.len()))?;
    bytes.fallible_extend_from_slice(first)?;
    bytes.fallible_extend_from_slice(second)?;
    Ok(bytes.into_boxed_slice())
}

impl fmt::Display for Version {
    /// Writes what `Display` of [`VersionRef`] writes. It does not allocate, and its only error is
    /// the writer's.
    fn fmt(&self, f: &mut fmt::Formatter<'_>) -> fmt::Result {
        let version = self.as_version_ref();
        write!(f, "{version}")
    }
}

impl fmt::Debug for Version {
    /// Writes what `Display` writes, in quotation marks.
    fn fmt(&self, f: &mut fmt::Formatter<'_>) -> fmt::Result {
        write!(f, "\"{self}\"")
    }
}

impl Hash for Version {
    /// Hashes what `Hash` of [`VersionRef`] hashes.
    fn hash<H: Hasher>(&self, state: &mut H) {
        self.as_version_ref().hash(state);
    }
}
