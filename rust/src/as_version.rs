//! The versions of which a range can be asked.

use crate::proved::repaired_strings::errors::Expected;
use crate::proved::tool_ranges::highest::Extreme;
use crate::{version, Error, Version, VersionRange, VersionRef};

/// A version, or a string that [`VersionRange::contains`], [`VersionRange::highest`] and
/// [`VersionRange::lowest`] read in the range's dialect:
///
/// - a string: `&str`, `String`, and whatever else is `AsRef<str>`
/// - a version that was read: a [`Version`], a [`VersionRef`], or a [`version::Version`] of
///   `semver-parser` 0.10, or a reference to one of them
///
/// It can't be implemented elsewhere.
///
/// ```
/// use semver_parser::{Dialect, Version, VersionRange};
///
/// let range = VersionRange::parse("^1.2", Dialect::Npm)?;
/// let versions = [Version::new(1, 2, 0), Version::new(2, 0, 0)];
/// assert_eq!(versions.iter().filter(|version| range.contains(version)).count(), 1);
/// assert_eq!(range.highest(vec![String::from("1.2.0")]), Some("1.2.0".to_string()));
/// # Ok::<(), semver_parser::Error>(())
/// ```
pub trait AsVersion: sealed::Sealed<<Self as AsVersion>::Contained> {
    /// The result of [`VersionRange::contains`]: `Result<bool, Error>` for a string, and `bool` for
    /// a version that was read.
    type Contained;
}

mod sealed {
    use super::{Extreme, VersionRange};

    pub trait Sealed<Contained>: Sized {
        fn contained(&self, range: &VersionRange) -> Contained;

        /// Returns the first of the versions in the range that no other one is above, or below.
        fn extreme(
            range: &VersionRange,
            which: Extreme,
            all: impl Iterator<Item = Self>,
        ) -> Option<Self>;
    }
}

impl<T: AsRef<str>> AsVersion for T {
    type Contained = Result<bool, Error>;
}

impl<T: AsRef<str>> sealed::Sealed<Result<bool, Error>> for T {
    #[inline]
    fn contained(&self, range: &VersionRange) -> Result<bool, Error> {
        let version = self.as_ref();
        let found = range.try_contains_bytes(version.as_bytes());
        found.map_err(|_| Error::from_string(Expected::Version, range.rules().dialect, version))
    }

    fn extreme(range: &VersionRange, which: Extreme, all: impl Iterator<Item = Self>) -> Option<Self> {
        let members = all.filter_map(|item| Some((range.member(item.as_ref())?, item)));
        let first = members.min_by(|(version, item), (other, another)| {
            range.compare_members(which, version, item.as_ref(), other, another.as_ref())
        });
        first.map(|(_, item)| item)
    }
}

macro_rules! versions {
    ($($contains:ident, $compare:ident: $($type:ty),*;)*) => {$($(
        impl AsVersion for $type {
            type Contained = bool;
        }

        impl sealed::Sealed<bool> for $type {
            #[inline]
            fn contained(&self, range: &VersionRange) -> bool {
                range.$contains(self)
            }

            fn extreme(
                range: &VersionRange,
                which: Extreme,
                all: impl Iterator<Item = Self>,
            ) -> Option<Self> {
                let members = all.filter(|item| range.$contains(item));
                members.min_by(|item, other| range.$compare(which, item, other))
            }
        }
    )*)*};
}

versions! {
    contains_owned, compare_owned: Version, &Version, &&Version;
    contains_ref, compare_refs: VersionRef<'_>, &VersionRef<'_>, &&VersionRef<'_>;
    contains_version, compare_versions: version::Version, &version::Version, &&version::Version;
}
