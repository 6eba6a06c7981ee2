// Made by tools/erase.py from crates/release_filter/src/selection.rt; not edited by hand.
//! Which of the kept lines are wanted, and the lines that are held until the end of the text.

use crate::rattle_std::prelude::*;
use crate::proved::release_filter::held::{Held, SelectedLine};
use crate::proved::release_filter::judge::Judged;
use crate::proved::semver_versions::read_version::ReadVersion;
use crate::proved::semver_versions::version::VersionRef;
use crate::rattle_std::AllocError;
use crate::rattle_std::cmp::Ordering;

/// Which of the kept lines are wanted.
#[derive(Clone, Copy, Debug, PartialEq, Eq)]
pub enum Selection {
    /// Every kept line, as soon as it has ended.
    Each,
    /// The line with the highest version by precedence (SemVer 2.0.0, section 11). Of lines with
    /// equal versions, it is the first. Build metadata is ignored.
    Highest,
    /// The line with the lowest version. Of lines with equal versions, it is the first.
    Lowest,
    /// All kept lines, from the lowest version to the highest. Lines with equal versions stay in
    /// their order. A line without the byte that ends lines gets it.
    Sorted,
    /// The lines of [`Selection::Sorted`], in reverse order.
    Reversed,
}

impl Selection {
    /// Returns whether the lines are sorted, so that each gets an end.
    pub(crate) fn closes_lines(self) -> bool {
        matches!(self, Selection::Sorted | Selection::Reversed)
    }
}

/// A kept line, and its index among the kept ones. With the index, a sort without a buffer leaves
/// lines with equal versions in their order.
#[derive(Clone, Copy)]
struct IndexedLine<'k> {
    index: usize,
    line: &'k SelectedLine,
}

impl IndexedLine<'_> {
    /// Compares two lines: first by precedence, then by the index.
    fn compare(&self, other: &IndexedLine<'_>) -> Ordering {
        let versions = self.line.version.compare_read(&other.line.version);
        versions.then(self.index.cmp(&other.index))
    }
}

impl Held {
    /// Returns a state that holds no line.
    pub(crate) fn new(selection: Selection) -> Held {
        Held {
            selection,
            lines: Vec::new(),
        }
    }

    /// Appends or holds a line, if it was decided to keep it. `Err` means out of memory.
    #[inline(always)]
    pub(crate) fn keep(
        &mut self,
        judged: &Judged<'_>,
        kept: &mut Vec<u8>,
    ) -> Result<(), AllocError> {
        if let Judged::Kept(borrowed, line) = judged {
            return self.keep_line(borrowed, line, kept);
        }
        Ok(())
    }

    /// Appends or holds a kept line with this version. `Err` means out of memory.
    #[inline(always)]
    fn keep_line(
        &mut self,
        borrowed: &VersionRef<'_>,
        line: &[u8],
        kept: &mut Vec<u8>,
    ) -> Result<(), AllocError> {
        match self.selection {
            Selection::Each => kept.fallible_extend_from_slice(line),
            Selection::Highest | Selection::Lowest => self.hold_best(borrowed, line),
            Selection::Sorted | Selection::Reversed => {
                let version = ReadVersion::of(borrowed)?;
                let bytes = Vec::fallible_from_slice(line)?;
                self.lines.fallible_push(SelectedLine { version, bytes })?;
                Ok(())
            }
        }
    }

    /// Holds only this line, if it is better than the best one so far. It reuses the memory of that
    /// one. `Err` means out of memory.
    fn hold_best(
        &mut self,
        borrowed: &VersionRef<'_>,
        line: &[u8],
    ) -> Result<(), AllocError> {
        if !is_better(self.selection, borrowed, self.lines.as_slice()) {
            return Ok(());
        }
        let version = ReadVersion::of(borrowed)?;
        let mut bytes = match self.lines.pop() {
            Some(former) => former.bytes,
            None => Vec::new(),
        };
        self.lines.clear();
        bytes.clear();
        bytes.fallible_extend_from_slice(line)?;
        self.lines.fallible_push(SelectedLine { version, bytes })?;
        Ok(())
    }

    /// Appends the held lines in order, and holds none afterwards. `Err` means out of memory.
    pub(crate) fn finish(&mut self, kept: &mut Vec<u8>) -> Result<(), AllocError> {
        append_sorted(self.lines.as_slice(), self.selection, kept)?;
        self.lines.clear();
        Ok(())
    }
}

/// Returns whether a version is better than the best one so far: there is none, or the version is
/// above it, or below it if the lowest is wanted.
#[inline(always)]
fn is_better(selection: Selection, borrowed: &VersionRef<'_>, held: &[SelectedLine]) -> bool {
    let [best, ..] = held else {
        return true;
    };
    let ordering = best.version.compared_ref(borrowed, borrowed.digits());
    match selection {
        Selection::Lowest => ordering.is_lt(),
        Selection::Each | Selection::Highest | Selection::Sorted | Selection::Reversed => {
            ordering.is_gt()
        }
    }
}

/// Returns the held lines, sorted by their versions, in the wanted order. `Err` means out of
/// memory.
fn sorted<'k>(
    held: &'k [SelectedLine],
    selection: Selection,
) -> Result<Vec<IndexedLine<'k>>, AllocError> {
    let mut lines = Vec::new();
    for line in held {
        let index = lines.len();
        lines.fallible_push(IndexedLine { index, line })?;
    }
    lines.sort_unstable_by(|line, other| line.compare(other));
    put_in_order(&mut lines, selection);
    Ok(lines)
}

/// Puts sorted lines into the wanted order.
fn put_in_order(lines: &mut Vec<IndexedLine<'_>>, selection: Selection) {
    match selection {
        Selection::Reversed => lines.reverse(),
        Selection::Each | Selection::Highest | Selection::Lowest | Selection::Sorted => {}
    }
}

/// Appends the held lines, sorted by their versions, in the wanted order. `Err` means out of
/// memory.
fn append_sorted(
    held: &[SelectedLine],
    selection: Selection,
    kept: &mut Vec<u8>,
) -> Result<(), AllocError> {
    let lines = sorted(held, selection)?;
    append(lines.as_slice(), kept)
}

/// Appends lines as they are. `Err` means out of memory.
fn append(lines: &[IndexedLine<'_>], kept: &mut Vec<u8>) -> Result<(), AllocError> {
    let begun = kept.len();
    for indexed in lines {
        if let Err(error) = kept.fallible_extend_from_slice(indexed.line.bytes.as_slice()) {
            kept.truncate(begun);
            return Err(error);
        }
    }
    Ok(())
}
