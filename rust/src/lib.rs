//! Reads versions (`1.2.3-rc.1`) and ranges (`^1.2 || 3.x`) as Cargo and npm read them, and compares
//! and combines ranges.
//!
//! ```
//! use semver_parser::{satisfies, Dialect, Version, VersionRange};
//!
//! assert!(satisfies("1.9.0", "^1.2", Dialect::Npm)?);
//!
//! let range = VersionRange::parse(">=1.2, <2", Dialect::Cargo)?;
//! let version: Version = "1.9.0".parse()?;
//! assert!(range.contains(&version));
//! assert_eq!(range.highest(["1.9.0", "1.10.0", "2.0.0"]), Some("1.10.0"));
//! # Ok::<(), semver_parser::Error>(())
//! ```
//!
//! | I want to | use |
//! |---|---|
//! | know whether a version satisfies a range | [`satisfies`]; for many versions, [`VersionRange::contains`] |
//! | choose from a list | [`VersionRange::highest`], [`VersionRange::lowest`] |
//! | read, make, sort and compare versions | [`Version`]; [`VersionRef`] borrows its string and doesn't allocate |
//! | compare and combine ranges | [`VersionRange`]: [`VersionRange::is_subset`], [`is_disjoint`](VersionRange::is_disjoint), [`union`](VersionRange::union) and others; `&a & &b`, `&a \| &b` and `&a - &b` panic if the rules differ |
//! | raise a requirement to a newer version | [`upgrade`](upgrade()) |
//! | write a range into a manifest | [`VersionRange::to_requirement`] |
//! | edit a range, and keep how it is written | [`terms`], [`PartialVersion::with_version`] |
//! | know where and why a string is invalid, and what may have been meant | [`Error`] |
//!
//! A [`Dialect`] says whose grammar and semantics are meant: `^1.2 || 3.x` is a range in npm, and
//! invalid in Cargo. If a function takes `impl Into<Rules>`, you can pass a dialect, or [`Rules`], which
//! also say which pre-releases count: `Dialect::Npm.with(PreReleases::Included)`.
//!
//! # Coming from `semver-parser` 0.10
//!
//! Everything in that crate is here under the same name: [`RangeSet`], [`Range`], [`Comparator`],
//! [`Op`], [`Compat`], [`Identifier`], and the modules [`version`], [`parser`] and [`lexer`]. They read
//! the original's own grammar, which is neither Cargo's nor npm's. In addition,
//! [`RangeSet::parse_exact`] returns exact bounds, and [`filters`] filters lists of versions by the
//! comparators. New code needs none of this.
//!
//! - [`version::Version`] is the original's plain data, whose `<` compares field by field. It converts
//!   from and into a [`Version`], and a [`VersionRange`] can be asked about it.
//! - A `match` over [`parser::Error`] needs one more arm, for `OutOfMemory`.
//! - [`RangeSet::parse`] rejects commas. The original accepts one comma after a comparator, and
//!   `semver` 0.9 to 0.11 rely on it. Spaces instead of commas keep the original's meaning, and
//!   [`Dialect::Cargo`] reads commas as Cargo does today, where `1.2` is `^1.2`:
//!
//!   ```
//!   use semver_parser::{comparators, Compat, Dialect, RangeSet};
//!
//!   let range = ">=1.2, <2";
//!   assert!(RangeSet::parse(range, Compat::Cargo).is_err());
//!   let set = RangeSet::parse(&range.replace(',', " "), Compat::Cargo)?;
//!   assert_eq!(set.to_string(), ">=1.2.0 <2.0.0");
//!   assert_eq!(comparators(range, Dialect::Cargo)?.to_string(), ">=1.2.0 <2.0.0");
//!   # Ok::<(), String>(())
//!   ```
//! - A number that doesn't fit is an error, not a panic.
//! - [`lexer::Lexer`] returns its error once, and then `None`.
//!
//! [`docs::original_crate`] lists every difference in ranges.
//!
//! # Pages
//!
//! - [`docs::ranges`]: the dialects, each form of range, and the rules for pre-releases
//! - [`docs::meaning`]: the definitions of Cargo's and npm's ranges, and of sets of versions
//! - [`docs::grammar`]: which strings are valid versions and ranges, and where and why one is
//!   invalid
//! - [`docs::original_crate`]: the grammar and the comparators of `semver-parser`, and the
//!   differences
//!
//! Elsewhere: [SemVer 2.0.0](https://semver.org/spec/v2.0.0.html), [requirements in the Cargo
//! book](https://doc.rust-lang.org/cargo/reference/specifying-dependencies.html), Cargo's crate
//! [`semver`](https://docs.rs/semver), [node-semver](https://github.com/npm/node-semver), and [the
//! original `semver-parser`](https://docs.rs/semver-parser/0.10.3).
//!
//! # If an allocation fails
//!
//! A call that returns an [`Error`] returns one of the kind [`ErrorKind::OutOfMemory`], and a call of
//! `semver-parser` 0.10 whose error has a case for it returns that. All other calls end the process,
//! like std.
//!
//! # What is proved
//!
//! The code that reads, compares and matches is written in Rattle, which is Rust with contracts, and
//! proved there for every input. This crate is that code without its contracts, below a layer that is
//! written by hand: names, conversions and operators. The crate has no dependency and no `unsafe`.
//! Without the feature `std` (default) it needs only `alloc`.
#![no_std]
#![forbid(unsafe_code)]
#![warn(missing_docs)]

extern crate alloc;
#[cfg(feature = "std")]
extern crate std;

// rustdoc lists methods in the order of the modules, and `parse` has to come before `try_parse`.
mod original;

mod proved;
#[allow(dead_code, unused_imports, unused_macros)]
mod rattle_std;

mod as_version;
#[cfg(doc)]
pub mod docs;
mod error;
mod rules;
mod terms;
mod upgrade;
mod version_range;
mod versions;

pub use as_version::AsVersion;
pub use proved::invalid_strings::reasons::Reason;
pub use proved::range_terms::term::{Component, PartialVersion, Span, Term};
pub use proved::range_terms::terms::Terms;
pub use proved::semver_errors::{Error, Kind as ErrorKind};
pub use proved::semver_ranges::operator::Operator;
pub use proved::semver_versions::owned::Version;
pub use proved::semver_versions::version::VersionRef;
pub use proved::semver_ranges::dialect::Dialect;
pub use proved::tool_ranges::meaning::Rules;
pub use proved::tool_ranges::version_range::VersionRange;
pub use proved::version_sets::PreReleases;
pub use terms::terms;
pub use upgrade::upgrade;
pub use version_range::{comparators, satisfies};

// Of semver-parser 0.10.
pub use proved::semver_parser::{lexer, parser};
pub use proved::semver_parser::{Comparator, Compat, Identifier, Op, Range, RangeError, RangeSet};

/// Versions as `semver-parser` 0.10 reads them.
///
/// ```
/// use semver_parser::version;
///
/// let version = version::parse("1.2.3-rc.4")?;
/// assert_eq!((version.major, version.minor, version.patch), (1, 2, 3));
/// # Ok::<(), semver_parser::parser::Error>(())
/// ```
pub mod version {
    pub use crate::proved::semver_parser::version::{parse, Identifier, Version};
}

/// Filters lists of versions by plain comparators. It keeps releases only.
///
/// ```
/// use semver_parser::{filters, version, Compat};
///
/// let versions = [version::parse("1.2.0")?, version::parse("2.0.0-alpha")?];
/// assert_eq!(filters::filter_text("^1.2", Compat::Cargo, &versions)?, [&versions[0]]);
/// # Ok::<(), semver_parser::Error>(())
/// ```
pub mod filters {
    pub use crate::proved::release_filter::{filter_text, release_meets};
}

#[cfg(all(doctest, feature = "std"))]
#[doc = include_str!("../README.md")]
struct Readme;
