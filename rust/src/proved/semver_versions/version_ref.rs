// Made by tools/erase.py from crates/semver_versions/src/version_ref.rt; not edited by hand.
//! Borrowed versions.

use crate::rattle_std::prelude::*;
use crate::proved::semver_versions::comparing::InVersions;
use crate::proved::semver_versions::identifiers::{identifiers, identifiers_of_text};
use crate::proved::semver_texts::dotted::{marked_len, text_of_parts};
use crate::proved::semver_texts::grammar::Digits;
use crate::proved::semver_texts::identifiers::{ByDigits, Joined};
use crate::proved::semver_texts::precedence::{Identifiers, compare};
use crate::proved::semver_texts::version::{Identifier, Version};
use crate::rattle_std::AllocError;
use crate::rattle_std::cmp::Ordering;

/// A borrowed version: the three numbers, and slices of the pre-release and of the build metadata
/// with their offsets. It can be converted to a [`Version`].
///
/// ```
/// use semver_parser::{Dialect, VersionRef};
///
/// let version = VersionRef::parse("v1.2.3-rc.4+5aedf", Dialect::Npm)?;
/// assert_eq!((version.major(), version.minor(), version.patch()), (1, 2, 3));
/// assert_eq!((version.pre(), version.build()), ("rc.4", "5aedf"));
/// # Ok::<(), semver_parser::Error>(())
/// ```
#[derive(Clone, Copy)]
pub struct VersionRef<'t> {
    pub(crate) major: u64,
    pub(crate) minor: u64,
    pub(crate) patch: u64,
    pub(crate) pre: &'t [u8],
    pub(crate) build: &'t [u8],
    pub(crate) before_pre: usize,
    pub(crate) before_build: usize,
    pub(crate) digits: Digits,
}

impl<'t> VersionRef<'t> {
    /// Returns the borrowed version 0.0.0.
    #[must_use]
    pub(crate) fn zero() -> VersionRef<'t> {
        VersionRef {
            major: 0,
            minor: 0,
            patch: 0,
            pre: &[],
            build: &[],
            before_pre: 0,
            before_build: 0,
            digits: Digits::Kept,
        }
    }

    /// Returns the first number.
    ///
    /// ```
    /// use semver_parser::{Dialect, VersionRef};
    ///
    /// assert_eq!(VersionRef::parse("1.2.3-rc.4+5aedf", Dialect::Npm)?.major(), 1);
    /// # Ok::<(), semver_parser::Error>(())
    /// ```
    #[must_use]
    #[inline(always)]
    pub fn major(&self) -> u64 {
        self.major
    }

    /// Returns the second number.
    ///
    /// ```
    /// use semver_parser::{Dialect, VersionRef};
    ///
    /// assert_eq!(VersionRef::parse("1.2.3-rc.4+5aedf", Dialect::Npm)?.minor(), 2);
    /// # Ok::<(), semver_parser::Error>(())
    /// ```
    #[must_use]
    #[inline(always)]
    pub fn minor(&self) -> u64 {
        self.minor
    }

    /// Returns the third number.
    ///
    /// ```
    /// use semver_parser::{Dialect, VersionRef};
    ///
    /// assert_eq!(VersionRef::parse("1.2.3-rc.4+5aedf", Dialect::Npm)?.patch(), 3);
    /// # Ok::<(), semver_parser::Error>(())
    /// ```
    #[must_use]
    #[inline(always)]
    pub fn patch(&self) -> u64 {
        self.patch
    }

    /// Returns the identifiers of the pre-release joined by dots, without the `-` before them. The
    /// string is empty if there is no pre-release.
    ///
    /// ```
    /// use semver_parser::{Dialect, VersionRef};
    ///
    /// assert_eq!(VersionRef::parse("1.2.3-rc.4+5aedf", Dialect::Npm)?.pre(), "rc.4");
    /// assert_eq!(VersionRef::parse("1.2.3+5aedf", Dialect::Npm)?.pre(), "");
    /// # Ok::<(), semver_parser::Error>(())
    /// ```
    #[must_use]
    pub fn pre(&self) -> &'t str {
        text_of_parts(self.pre)
    }

    /// Returns the bytes of [`VersionRef::pre`]. They aren't converted to a `str`, for speed.
    #[must_use]
    #[inline(always)]
    pub(crate) fn pre_bytes(&self) -> &'t [u8] {
        self.pre
    }

    /// Returns the identifiers of the build metadata joined by dots, without the `+` before them.
    /// The string is empty if there is no build metadata.
    ///
    /// ```
    /// use semver_parser::{Dialect, VersionRef};
    ///
    /// assert_eq!(VersionRef::parse("1.2.3-rc.4+5aedf", Dialect::Npm)?.build(), "5aedf");
    /// assert_eq!(VersionRef::parse("1.2.3-rc.4", Dialect::Npm)?.build(), "");
    /// # Ok::<(), semver_parser::Error>(())
    /// ```
    #[must_use]
    pub fn build(&self) -> &'t str {
        text_of_parts(self.build)
    }

    /// Returns whether the version has a pre-release.
    ///
    /// ```
    /// use semver_parser::{Dialect, VersionRef};
    ///
    /// assert!(VersionRef::parse("1.2.3-rc.4+5aedf", Dialect::Npm)?.is_pre_release());
    /// assert!(!VersionRef::parse("1.2.3+5aedf", Dialect::Npm)?.is_pre_release());
    /// # Ok::<(), semver_parser::Error>(())
    /// ```
    #[must_use]
    #[inline(always)]
    pub fn is_pre_release(&self) -> bool {
        !self.pre.is_empty()
    }

    /// Returns the byte offset of the pre-release's identifiers in the string that was read, or 0
    /// if there is no pre-release.
    #[must_use]
    #[inline(always)]
    pub(crate) fn pre_offset(&self) -> usize {
        self.before_pre
    }

    /// Returns the byte offset of the build metadata's identifiers in the string that was read, or
    /// 0 if there is no build metadata.
    #[must_use]
    #[inline(always)]
    pub(crate) fn build_offset(&self) -> usize {
        self.before_build
    }

    /// Returns how a numeric identifier above 2^64 - 1 is read, in the dialect in which the string
    /// was read: as a string, which is what `semver-parser` does, or as a number.
    #[must_use]
    #[inline(always)]
    pub(crate) fn digits(&self) -> Digits {
        self.digits
    }

    /// Returns the same version, whose numeric identifiers are read as `digits` says.
    #[must_use]
    #[inline(always)]
    pub(crate) fn read_by(&self, digits: Digits) -> VersionRef<'t> {
        VersionRef {
            major: self.major,
            minor: self.minor,
            patch: self.patch,
            pre: self.pre,
            build: self.build,
            before_pre: self.before_pre,
            before_build: self.before_build,
            digits,
        }
    }

    /// Returns the identifiers of the pre-release for comparing. They are read one by one, as they
    /// are needed. It does not allocate.
    #[must_use]
    #[inline(always)]
    pub(crate) fn compared_pre(&self) -> ByDigits<Joined<'t, InVersions>> {
        self.pre_by(self.digits)
    }

    /// Returns the identifiers of the pre-release for comparing, where numeric ones are read as
    /// `digits` says.
    #[inline(always)]
    pub(crate) fn pre_by(&self, digits: Digits) -> ByDigits<Joined<'t, InVersions>> {
        ByDigits::of(Joined::of(self.pre, InVersions), digits)
    }

    /// Returns the identifiers of the pre-release. Numeric identifiers above 2^64 - 1 are kept as
    /// strings.
    ///
    /// If there are identifiers, it allocates their list, and each identifier that isn't a number.
    /// `Err` means out of memory.
    #[inline(always)]
    pub(crate) fn pre_identifiers(&self) -> Result<Vec<Identifier>, AllocError> {
        identifiers(self.pre)
    }

    /// Returns the identifiers of the build metadata. It allocates like
    /// [`VersionRef::pre_identifiers`].
    #[inline(always)]
    pub(crate) fn build_identifiers(&self) -> Result<Vec<Identifier>, AllocError> {
        identifiers(self.build)
    }

    /// Returns the version with identifiers of its own.
    ///
    /// If there is a pre-release or build metadata, it allocates the lists of identifiers, and each
    /// identifier that isn't a number. `Err` means out of memory.
    #[inline(always)]
    pub(crate) fn version(&self) -> Result<Version, AllocError> {
        Ok(Version {
            major: self.major,
            minor: self.minor,
            patch: self.patch,
            pre: self.pre_identifiers()?,
            build: self.build_identifiers()?,
        })
    }

    /// Returns the version, if the borrowed version is that of the string. The identifiers are cut
    /// from the string, so their bytes needn't be checked for UTF-8, for speed.
    #[inline(always)]
    pub(crate) fn version_in(&self, text: &str) -> Result<Version, AllocError> {
        Ok(Version {
            major: self.major,
            minor: self.minor,
            patch: self.patch,
            pre: identifiers_at(text, self.before_pre, self.pre)?,
            build: identifiers_at(text, self.before_build, self.build)?,
        })
    }

    /// Compares this borrowed version with a version by precedence (SemVer 2.0.0, section 11), like
    /// `version::cmp_precedence`. Build metadata is ignored. Numeric identifiers on both sides are
    /// read as in the borrowed version's dialect. It does not allocate.
    #[must_use]
    #[inline(always)]
    pub(crate) fn compare_with(&self, version: &Version) -> Ordering {
        compare(
            (self.major, self.minor, self.patch),
            self.compared_pre(),
            (version.major, version.minor, version.patch),
            ByDigits::of(version.pre.as_slice(), self.digits),
        )
    }

    /// Compares two borrowed versions by precedence (SemVer 2.0.0, section 11). Build metadata is
    /// ignored. Numeric identifiers are read in the dialect of each. It does not allocate.
    #[must_use]
    #[inline(always)]
    pub(crate) fn compare(&self, other: &VersionRef<'_>) -> Ordering {
        compare(
            (self.major, self.minor, self.patch),
            self.compared_pre(),
            (other.major, other.minor, other.patch),
            other.compared_pre(),
        )
    }
}

/// Returns the identifiers of parts that are in a string at an offset. `Err` means out of memory.
#[inline(always)]
fn identifiers_at(
    text: &str,
    offset: usize,
    parts: &[u8],
) -> Result<Vec<Identifier>, AllocError> {
    if parts.is_empty() {
        return Ok(Vec::new());
    }
    identifiers_of_text(&text[offset..offset + parts.len()])
}

/// Returns the offset of a part whose mark is at an offset, or 0 if there is no part.
#[inline(always)]
fn after_mark_at(place: usize, part: &[u8]) -> usize {
    if part.is_empty() { 0 } else { place + 1 }
}

/// Returns the borrowed version of these numbers, which end at an offset, and of a pre-release and
/// build metadata, which follow, each after its mark.
#[inline(always)]
pub(crate) fn with_parts<'t>(
    major: u64,
    minor: u64,
    patch: u64,
    numbers_end: usize,
    pre: &'t [u8],
    build: &'t [u8],
    digits: Digits,
) -> VersionRef<'t> {
    let pre_end = numbers_end + marked_len(pre);
    VersionRef {
        major,
        minor,
        patch,
        pre,
        build,
        before_pre: after_mark_at(numbers_end, pre),
        before_build: after_mark_at(pre_end, build),
        digits,
    }
}
