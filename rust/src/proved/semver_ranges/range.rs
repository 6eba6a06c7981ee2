// Made by tools/erase.py from crates/semver_ranges/src/range.rt; not edited by hand.
//! Ranges as plain data: comparators, and how they are printed.

use crate::rattle_std::prelude::*;
use crate::proved::semver_texts::printing::{write_joined, write_part};
use crate::rattle_std::fmt;

/// A range: comparators, all of which a version has to satisfy.
///
/// ```
/// use semver_parser::{Compat, RangeSet};
///
/// let set = RangeSet::parse("^1.2.3 || 3.x", Compat::Npm)?;
/// assert_eq!(set.ranges[0].comparator_set.len(), 2);
/// assert_eq!(set.ranges[0].to_string(), ">=1.2.3 <2.0.0");
/// # Ok::<(), String>(())
/// ```
#[derive(Clone, PartialEq, Eq, PartialOrd, Ord, Hash, Debug)]
pub struct Range {
    /// The comparators, in the order of the string.
    pub comparator_set: Vec<Comparator>,
    /// The mode in which the string was read.
    pub compat: Compat,
}

impl crate::rattle_std::FallibleClone for Range {
    fn fallible_clone(&self) -> Result<Self, crate::rattle_std::AllocError> {
        match self {
            Range { comparator_set, compat } => Ok(Range { comparator_set: comparator_set.fallible_clone()?, compat: *compat }),
        }
    }
}

/// A comparator: an operator and the version to compare with.
///
/// ```
/// use semver_parser::{Compat, Op, RangeSet};
///
/// let set = RangeSet::parse(">=1.2.3-beta.4", Compat::Npm)?;
/// let comparator = &set.ranges[0].comparator_set[0];
/// assert_eq!((&comparator.op, comparator.major), (&Op::Gte, 1));
/// assert_eq!(comparator.to_string(), ">=1.2.3-beta.4");
/// # Ok::<(), String>(())
/// ```
#[derive(Clone, PartialEq, Eq, PartialOrd, Ord, Hash, Debug)]
pub struct Comparator {
    /// The comparison that a version has to pass.
    pub op: Op,
    /// The first number.
    pub major: u64,
    /// The second number.
    pub minor: u64,
    /// The third number.
    pub patch: u64,
    /// The identifiers of the pre-release.
    pub pre: Vec<Identifier>,
}

impl crate::rattle_std::FallibleClone for Comparator {
    fn fallible_clone(&self) -> Result<Self, crate::rattle_std::AllocError> {
        match self {
            Comparator { op, major, minor, patch, pre } => Ok(Comparator { op: op.fallible_clone()?, major: *major, minor: *minor, patch: *patch, pre: pre.fallible_clone()? }),
        }
    }
}

/// The operator of a comparator.
///
/// ```
/// use semver_parser::Op;
///
/// assert_eq!(Op::Gte.to_string(), ">=");
/// ```
#[derive(Clone, PartialEq, Eq, PartialOrd, Ord, Hash, Debug)]
pub enum Op {
    /// `<`: below.
    Lt,
    /// `<=`: not above.
    Lte,
    /// `>`: above.
    Gt,
    /// `>=`: not below.
    Gte,
    /// `=`: equal by precedence.
    Eq,
}

impl crate::rattle_std::FallibleClone for Op {
    fn fallible_clone(&self) -> Result<Self, crate::rattle_std::AllocError> {
        match self {
            Op::Lt => Ok(Op::Lt),
            Op::Lte => Ok(Op::Lte),
            Op::Gt => Ok(Op::Gt),
            Op::Gte => Ok(Op::Gte),
            Op::Eq => Ok(Op::Eq),
        }
    }
}

/// An identifier of a comparator's pre-release. Its type differs from that of a version's
/// identifiers, as in the Rust crate.
///
/// ```
/// use semver_parser::{Compat, Identifier, RangeSet};
///
/// let set = RangeSet::parse("=1.2.3-beta.04", Compat::Npm)?;
/// let pre = &set.ranges[0].comparator_set[0].pre;
/// assert_eq!(pre, &[Identifier::AlphaNumeric("beta".to_string()), Identifier::Numeric(4)]);
/// # Ok::<(), String>(())
/// ```
#[derive(Clone, PartialEq, Eq, PartialOrd, Ord, Hash, Debug)]
pub enum Identifier {
    /// A part that consists of only digits, with a value up to 2^64 - 1. Leading zeros aren't kept.
    Numeric(u64),
    /// Any other part, as a string.
    AlphaNumeric(String),
}

impl crate::rattle_std::FallibleClone for Identifier {
    fn fallible_clone(&self) -> Result<Self, crate::rattle_std::AllocError> {
        match self {
            Identifier::Numeric(_0) => Ok(Identifier::Numeric(*_0)),
            Identifier::AlphaNumeric(_0) => Ok(Identifier::AlphaNumeric(_0.fallible_clone()?)),
        }
    }
}

/// How a bare version of three numbers is read.
///
/// ```
/// use semver_parser::{Compat, RangeSet};
///
/// assert_eq!(RangeSet::parse("1.2.3", Compat::Cargo)?.to_string(), ">=1.2.3 <2.0.0");
/// assert_eq!(RangeSet::parse("1.2.3", Compat::Npm)?.to_string(), "=1.2.3");
/// # Ok::<(), String>(())
/// ```
#[derive(Clone, Copy, PartialEq, Eq, PartialOrd, Ord, Hash, Debug)]
pub enum Compat {
    /// Like a caret: `1.2.3` is `>=1.2.3 <2.0.0`.
    Cargo,
    /// As exactly this version: `1.2.3` is `=1.2.3`.
    Npm,
}

impl fmt::Display for Op {
    /// Writes the operator as it is in a range string: `Op::Gte` as `>=`. It does not allocate, and
    /// its only error is the writer's.
    fn fmt(&self, f: &mut fmt::Formatter<'_>) -> fmt::Result {
        f.write_str(match self {
            Op::Lt => "<",
            Op::Lte => "<=",
            Op::Gt => ">",
            Op::Gte => ">=",
            Op::Eq => "=",
        })
    }
}

impl fmt::Display for Identifier {
    /// Writes the decimal number, or the string itself: `Numeric(4)` as `4`, `AlphaNumeric("beta")`
    /// as `beta`. It does not allocate, and its only error is the writer's.
    fn fmt(&self, f: &mut fmt::Formatter<'_>) -> fmt::Result {
        match self {
            Identifier::Numeric(number) => {
                let number = *number;
                write!(f, "{number}")
            }
            Identifier::AlphaNumeric(text) => write!(f, "{text}"),
        }
    }
}

impl fmt::Display for Comparator {
    /// Writes the operator and all three numbers, separated by dots. If there is a pre-release, `-`
    /// and its identifiers, joined by dots, follow: `>=1.2.3-beta.4`. It does not allocate, and its
    /// only error is the writer's.
    fn fmt(&self, f: &mut fmt::Formatter<'_>) -> fmt::Result {
        let (op, major, minor, patch) = (&self.op, self.major, self.minor, self.patch);
        write!(f, "{op}{major}.{minor}.{patch}")?;
        write_part(f, "-", &self.pre)
    }
}

impl fmt::Display for Range {
    /// Writes the comparators, separated by single spaces: `>=1.2.3 <2.0.0`. A range without
    /// comparators is written as the empty string. It does not allocate, and its only error is the
    /// writer's.
    fn fmt(&self, f: &mut fmt::Formatter<'_>) -> fmt::Result {
        write_joined(f, " ", &self.comparator_set)
    }
}
