// Made by tools/erase.py from crates/version_sets/src/span_end.rt; not edited by hand.
//! The trait of both kinds of ends of spans.

use crate::rattle_std::prelude::*;
use crate::proved::version_sets::boundary::Boundary;
use crate::proved::version_sets::release::Release;
use crate::rattle_std::AllocError;
use crate::rattle_std::cmp::Ordering;

/// The beginning or the end of a span of one kind of versions. It owns no memory.
pub(crate) trait SpanEnd: Copy {
    /// The boundary as a set keeps it.
    type Boundary: Boundary;

    /// Compares two ends by precedence.
    fn compare(&self, other: &Self) -> Ordering;

    /// Returns the boundary at the same position. `Err` means out of memory.
    fn boundary(&self) -> Result<Self::Boundary, AllocError>;
}

impl SpanEnd for Release {
    type Boundary = Release;

    fn compare(&self, other: &Release) -> Ordering {
        self.cmp(other)
    }

    /// Copies the numbers. It does not allocate.
    fn boundary(&self) -> Result<Release, AllocError> {
        let (major, minor, patch) = (self.major, self.minor, self.patch);
        Ok(Release {
            major,
            minor,
            patch,
        })
    }
}
