//! Ranges that were read, and strings against strings.

use crate::original::out_of_memory;
use crate::proved::tool_ranges::highest::Extreme;
use crate::proved::tool_ranges::satisfying;
use crate::proved::requirements::requirement::requirement;
use crate::proved::tool_ranges::rewriting::rewrite;
use crate::proved::version_sets::Combination;
use crate::{AsVersion, Dialect, Error, ErrorKind, RangeSet, Rules, Version, VersionRange};
use alloc::string::String;
use core::ops::{BitAnd, BitOr, Sub};

/// Returns whether a version satisfies a range. Both are read by the same rules: in a [`Dialect`],
/// or by [`Rules`], which also say which pre-releases count. To check many versions against one
/// range, read the range once, as a [`VersionRange`].
///
/// It allocates only if it returns an error.
///
/// # Errors
///
/// An [`Error`] for the version if it is invalid in the dialect, otherwise for the range if that is
/// invalid.
///
/// ```
/// use semver_parser::{satisfies, Dialect, ErrorKind, PreReleases};
///
/// assert!(satisfies("1.9.0", "^1.2", Dialect::Npm)?);
/// assert!(satisfies("1.4.0", ">=1.2, <1.5", Dialect::Cargo)?);
/// assert!(satisfies("1.3.0-rc.1", "^1.2", Dialect::Npm.with(PreReleases::Included))?);
///
/// let error = satisfies("1.2", "^1.2", Dialect::Npm).unwrap_err();
/// assert_eq!(error.kind(), ErrorKind::InvalidVersion);
/// assert_eq!(
///     error.to_string(),
///     "invalid version \"1.2\" at offset 3: there are fewer than three numbers"
/// );
/// # Ok::<(), semver_parser::Error>(())
/// ```
#[inline]
pub fn satisfies(version: &str, range: &str, rules: impl Into<Rules>) -> Result<bool, Error> {
    let rules = rules.into();
    let result = satisfying::satisfies(version.as_bytes(), range, rules);
    result.map_err(|error| Error::from_satisfies(error, version, range, rules.dialect))
}

/// Rewrites a range string into plain comparators with exact bounds, as data of `semver-parser`
/// 0.10. A release satisfies them by precedence if and only if it satisfies the range.
///
/// # Errors
///
/// An [`Error`] if the string isn't a range in the dialect.
///
/// ```
/// use semver_parser::{comparators, Dialect};
///
/// assert_eq!(comparators("1.2", Dialect::Cargo)?.to_string(), ">=1.2.0 <2.0.0-0");
/// assert_eq!(comparators("1.2", Dialect::Npm)?.to_string(), ">=1.2.0 <1.3.0-0");
/// # Ok::<(), semver_parser::Error>(())
/// ```
pub fn comparators(range: &str, dialect: Dialect) -> Result<RangeSet, Error> {
    rewrite(dialect, range).map_err(|error| Error::from_range(error, range, dialect))
}

impl VersionRange {
    /// Reads a range string in a [`Dialect`], or by [`Rules`], which also say which pre-releases
    /// count.
    ///
    /// # Errors
    ///
    /// An [`Error`] of the kind [`InvalidRange`](crate::ErrorKind::InvalidRange), which says where
    /// and why the string isn't a range.
    ///
    /// ```
    /// use semver_parser::{Dialect, VersionRange};
    ///
    /// let range = VersionRange::parse("1.x || >=2.5.0", Dialect::Npm)?;
    /// assert!(range.contains("2.6.0")?);
    /// let error = VersionRange::parse("1 || 2", Dialect::Cargo).unwrap_err();
    /// assert_eq!(error.offset(), Some(2));
    /// # Ok::<(), semver_parser::Error>(())
    /// ```
    pub fn parse(range: &str, rules: impl Into<Rules>) -> Result<VersionRange, Error> {
        let rules = rules.into();
        VersionRange::try_parse(range, rules)
            .map_err(|error| Error::from_range(error, range, rules.dialect))
    }

    /// Returns whether the range contains a version. Build metadata is ignored.
    ///
    /// A string is read in the range's dialect, and the result is a `Result<bool, Error>`. For a
    /// version that was read, the result is a `bool`. It allocates only if it returns an error.
    ///
    /// ```
    /// use semver_parser::{Dialect, Version, VersionRange};
    ///
    /// let range = VersionRange::parse("^1.2", Dialect::Npm)?;
    /// assert!(range.contains("v1.9.0+b5")?);
    /// assert!(range.contains("latest").is_err());
    /// assert!(range.contains(&Version::new(1, 9, 0)));
    /// # Ok::<(), semver_parser::Error>(())
    /// ```
    #[must_use]
    #[inline]
    pub fn contains<V: AsVersion>(&self, version: V) -> V::Contained {
        version.contained(self)
    }

    /// Returns the highest of the given versions that the range contains, or `None` if it contains
    /// none of them. Versions are compared by precedence, and the first of equal versions is
    /// returned. Strings that are invalid versions in the range's dialect are skipped; to find
    /// them, read the versions first.
    ///
    /// ```
    /// use semver_parser::{Dialect, Version, VersionRange};
    ///
    /// let range = VersionRange::parse("^1.2", Dialect::Npm)?;
    /// assert_eq!(range.highest(["1.9.0", "latest", "1.10.0", "2.0.0"]), Some("1.10.0"));
    /// let versions = [Version::new(1, 2, 0), Version::new(1, 3, 0)];
    /// assert_eq!(range.highest(&versions), Some(&versions[1]));
    /// # Ok::<(), semver_parser::Error>(())
    /// ```
    #[must_use]
    pub fn highest<V: AsVersion>(&self, versions: impl IntoIterator<Item = V>) -> Option<V> {
        V::extreme(self, Extreme::Highest, versions.into_iter())
    }

    /// Returns the lowest of the given versions that the range contains. It is otherwise like
    /// [`VersionRange::highest`].
    ///
    /// ```
    /// use semver_parser::{Dialect, VersionRange};
    ///
    /// let range = VersionRange::parse("^1.2", Dialect::Npm)?;
    /// assert_eq!(range.lowest(["1.1.0", "1.10.0", "1.9.0"]), Some("1.9.0"));
    /// # Ok::<(), semver_parser::Error>(())
    /// ```
    #[must_use]
    pub fn lowest<V: AsVersion>(&self, versions: impl IntoIterator<Item = V>) -> Option<V> {
        V::extreme(self, Extreme::Lowest, versions.into_iter())
    }

    /// Returns the lowest version of the dialect that the range contains, or `None` if there is
    /// none. By the dialect's rule for pre-releases, npm's `*` contains releases only, so its
    /// lowest version is 0.0.0. A version of npm's dialect has no number above 2^53 - 1.
    ///
    /// ```
    /// use semver_parser::{Dialect, Version, VersionRange};
    ///
    /// let range = VersionRange::parse(">1.2 || 3.x", Dialect::Npm)?;
    /// assert_eq!(range.min_version(), Some(Version::new(1, 3, 0)));
    /// assert_eq!(VersionRange::parse("<0.0.0", Dialect::Npm)?.min_version(), None);
    /// # Ok::<(), semver_parser::Error>(())
    /// ```
    #[must_use]
    pub fn min_version(&self) -> Option<Version> {
        self.lowest_owned().unwrap_or_else(|_| out_of_memory())
    }

    /// Returns whether the other range contains every version that this one does. One may have been
    /// read in Cargo's dialect and the other in npm's.
    ///
    /// # Errors
    ///
    /// [`DifferentRules`](ErrorKind::DifferentRules) if one was read in Cargo's or npm's dialect, and
    /// the other in one of `semver-parser`, for which an identifier of digits from 2^64 on isn't a
    /// number.
    ///
    /// ```
    /// use semver_parser::{Dialect, VersionRange};
    ///
    /// let range = VersionRange::parse("~1.2", Dialect::Npm)?;
    /// assert!(range.is_subset(&VersionRange::parse("1", Dialect::Cargo)?)?);
    /// # Ok::<(), semver_parser::Error>(())
    /// ```
    pub fn is_subset(&self, other: &VersionRange) -> Result<bool, Error> {
        self.is_subset_of(other).map_err(Error::from_operation)
    }

    /// Returns whether no version is in both ranges.
    ///
    /// # Errors
    ///
    /// The errors of [`VersionRange::is_subset`].
    ///
    /// ```
    /// use semver_parser::{Dialect, VersionRange};
    ///
    /// let range = VersionRange::parse("~1.2", Dialect::Npm)?;
    /// assert!(range.is_disjoint(&VersionRange::parse("~1.3", Dialect::Npm)?)?);
    /// # Ok::<(), semver_parser::Error>(())
    /// ```
    pub fn is_disjoint(&self, other: &VersionRange) -> Result<bool, Error> {
        self.is_disjoint_from(other).map_err(Error::from_operation)
    }

    /// Returns the range of the versions that are in either range; also `&a | &b`.
    ///
    /// # Errors
    ///
    /// [`DifferentRules`](ErrorKind::DifferentRules) unless both were read by the same rules.
    ///
    /// ```
    /// use semver_parser::{Dialect, VersionRange};
    ///
    /// let range = VersionRange::parse(">=1.0.0 <1.5.0", Dialect::Npm)?;
    /// let other = VersionRange::parse(">=1.2.0 <2.0.0", Dialect::Npm)?;
    /// assert_eq!(range.union(&other)?.to_string(), ">=1.0.0 <2.0.0");
    /// # Ok::<(), semver_parser::Error>(())
    /// ```
    pub fn union(&self, other: &VersionRange) -> Result<VersionRange, Error> {
        self.combined(Combination::Union, other).map_err(Error::from_operation)
    }

    /// Returns the range of the versions that are in both ranges; also `&a & &b`.
    ///
    /// # Errors
    ///
    /// The errors of [`VersionRange::union`].
    ///
    /// ```
    /// use semver_parser::{Dialect, VersionRange};
    ///
    /// let range = VersionRange::parse(">=1.0.0 <1.5.0", Dialect::Npm)?;
    /// let other = VersionRange::parse(">=1.2.0 <2.0.0", Dialect::Npm)?;
    /// assert_eq!(range.intersection(&other)?.to_string(), ">=1.2.0 <1.5.0");
    /// # Ok::<(), semver_parser::Error>(())
    /// ```
    pub fn intersection(&self, other: &VersionRange) -> Result<VersionRange, Error> {
        self.combined(Combination::Intersection, other).map_err(Error::from_operation)
    }

    /// Returns the range of the versions that are in this range, but not in the other; also
    /// `&a - &b`.
    ///
    /// # Errors
    ///
    /// The errors of [`VersionRange::union`].
    ///
    /// ```
    /// use semver_parser::{Dialect, VersionRange};
    ///
    /// let range = VersionRange::parse(">=1.0.0 <1.5.0", Dialect::Npm)?;
    /// let other = VersionRange::parse(">=1.2.0 <2.0.0", Dialect::Npm)?;
    /// assert_eq!(range.difference(&other)?.to_string(), ">=1.0.0 <1.2.0");
    /// # Ok::<(), semver_parser::Error>(())
    /// ```
    pub fn difference(&self, other: &VersionRange) -> Result<VersionRange, Error> {
        self.combined(Combination::Difference, other).map_err(Error::from_operation)
    }

    /// Returns the releases of the range as intervals, in ascending order. Each is a
    /// [`Range`](crate::Range) with one or two comparators.
    ///
    /// ```
    /// use semver_parser::{Dialect, VersionRange};
    ///
    /// let range = VersionRange::parse("1.2.0 || >=1.9", Dialect::Npm)?;
    /// assert_eq!(range.releases().to_string(), "=1.2.0 || >=1.9.0");
    /// # Ok::<(), semver_parser::Error>(())
    /// ```
    #[must_use]
    pub fn releases(&self) -> RangeSet {
        self.versions().release_ranges().unwrap_or_else(|_| out_of_memory()).range_set
    }

    /// Returns the pre-releases of the range as intervals by precedence. They are otherwise like
    /// those of [`VersionRange::releases`].
    ///
    /// ```
    /// use semver_parser::{Dialect, VersionRange};
    ///
    /// let range = VersionRange::parse("^1.2.3-b", Dialect::Npm)?;
    /// assert_eq!(range.pre_releases().to_string(), ">=1.2.3-b <1.2.3");
    /// # Ok::<(), semver_parser::Error>(())
    /// ```
    #[must_use]
    pub fn pre_releases(&self) -> RangeSet {
        self.versions().pre_release_ranges().unwrap_or_else(|_| out_of_memory()).range_set
    }

    /// Returns the range as it can be written into a `Cargo.toml` or a `package.json`: a string that
    /// reads back, by the range's own rules, as a range of the same versions. It is `None` if no such
    /// string was found. Cargo's syntax has no `||`, for example, so it can't say a range with a gap.
    ///
    /// ```
    /// use semver_parser::{Dialect, VersionRange};
    ///
    /// let old = VersionRange::parse("^1.2.3-rc.1", Dialect::Cargo)?;
    /// let new = VersionRange::parse("<1.9", Dialect::Cargo)?;
    /// assert_eq!(old.to_requirement().as_deref(), Some(">=1.2.3-rc.1, <2.0.0"));
    /// assert_eq!((&old & &new).to_requirement().as_deref(), Some(">=1.2.3, <1.9.0"));
    /// assert_eq!((&old - &new).to_requirement(), None); // 1.2.3-rc.1, and from 1.9.0 on
    /// # Ok::<(), semver_parser::Error>(())
    /// ```
    #[must_use]
    pub fn to_requirement(&self) -> Option<String> {
        requirement(self).unwrap_or_else(|_| out_of_memory())
    }
}

/// Returns the result of an operator. If an allocation failed, it ends the process, like std.
fn operator_result(result: Result<VersionRange, Error>) -> VersionRange {
    result.unwrap_or_else(|error| match error.kind() {
        ErrorKind::OutOfMemory => out_of_memory(),
        _ => panic!("{error}"),
    })
}

macro_rules! operators {
    ($($trait:ident, $operator:ident, $method:ident, $name:literal;)*) => {$(
        impl $trait for &VersionRange {
            type Output = VersionRange;

            #[doc = concat!("Returns the result of [`VersionRange::", $name, "`].")]
            ///
            /// # Panics
            ///
            /// If the ranges were read by different rules.
            fn $operator(self, other: &VersionRange) -> VersionRange {
                operator_result(self.$method(other))
            }
        }
    )*};
}

operators! {
    BitOr, bitor, union, "union";
    BitAnd, bitand, intersection, "intersection";
    Sub, sub, difference, "difference";
}
