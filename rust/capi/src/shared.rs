//! What the layers for C and for JavaScript share: names of what is proved, and calls that neither
//! can make as one proved call. Each compiles the proved sources itself, by their paths, so nothing
//! of this is public in the Rust crate.

pub use crate::proved::invalid_ranges::refusals::refused as explain_range;
pub use crate::proved::invalid_strings::reasons::Reason;
pub use crate::proved::range_terms::term::{Component, PartialVersion, Span, Term};
pub use crate::proved::range_terms::terms::Terms;
pub use crate::proved::range_upgrades::upgrade::{upgrade as upgraded, UpgradeError};
pub use crate::proved::repaired_strings::errors::Expected;
pub use crate::proved::repaired_strings::repairs::repaired;
pub(crate) use crate::proved::repaired_strings::spans::span_at;
pub use crate::proved::requirements::requirement::requirement;
pub use crate::proved::semver_errors::{Error, Kind};
pub use crate::proved::semver_ranges::RangeError;
pub use crate::proved::semver_versions::version::{read_ref_in, VersionRef};
pub use crate::proved::semver_ranges::dialect::Dialect;
pub use crate::proved::tool_ranges::rewriting::rewrite;
pub use crate::proved::tool_ranges::highest::Extreme;
pub use crate::proved::tool_ranges::meaning::Rules;
pub use crate::proved::tool_ranges::satisfying::{satisfies, SatisfiesError};
pub use crate::proved::tool_ranges::version_range::VersionRange;
pub use crate::proved::version_sets::{Combination, PreReleases};
pub use crate::rattle_std::AllocError;

use crate::proved::invalid_strings::refusals::{explain, Refusal};
use crate::proved::semver_errors::printing::write_with_carets;
use core::fmt::{self, Display, Formatter};

/// Returns where and why bytes are an invalid version in a dialect, or `None` if they are valid. It
/// allocates only if they are invalid.
pub fn explain_version(bytes: &[u8], dialect: Dialect) -> Result<Option<Refusal>, AllocError> {
    explain(bytes, dialect.grammar())
}

/// Returns the version of a term that begins at an offset of a range string, with what is before and
/// after it. Returns `None` if no version of a term begins there. It does not allocate.
pub fn version_at(
    range: &str,
    start: usize,
    dialect: Dialect,
) -> Result<Option<(&str, PartialVersion<'_>, &str)>, RangeError> {
    let mut versions = Terms::try_parse(range, dialect)?
        .flat_map(|term| [Some(term.version), term.upper])
        .flatten();
    Ok(versions.find(|it| it.span.start == start).map(|written| {
        (&range[..start], written, &range[written.span.end..])
    }))
}

/// An error of a string, which is printed as `{:#}` prints it in Rust.
pub struct WithCarets<'a> {
    pub expected: Expected,
    pub reason: Reason,
    pub string: &'a str,
    /// The offset of the error, which is between characters of the string.
    pub offset: usize,
}

impl Display for WithCarets<'_> {
    fn fmt(&self, f: &mut Formatter<'_>) -> fmt::Result {
        let span = span_at(self.string, self.offset, self.reason);
        write_with_carets(f, self.expected, self.reason, self.string, span)
    }
}

/// Returns the error of a range that can't be raised to a version. `Err` means out of memory.
pub fn cannot_upgrade(range: &str) -> Result<Error, AllocError> {
    let error = Error::cannot_upgrade(range);
    match error.kind() {
        Kind::OutOfMemory => Err(AllocError),
        _ => Ok(error),
    }
}
