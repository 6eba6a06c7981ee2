// Made by tools/erase.py from crates/release_filter/src/lines.rt; not edited by hand.
//! Filters the lines of a text that comes in pieces. A line is held until it ends, but no more of
//! it than shows that it has no version: a text of more than 1,048,576 bytes has none.

use crate::rattle_std::prelude::*;
use crate::proved::release_filter::counts::Counts;
use crate::proved::release_filter::held::Held;
use crate::proved::release_filter::judge::Judge;
use crate::proved::release_filter::line_options::LineOptions;
use crate::proved::release_filter::line_texts::{after_mark, closing, cut, first_line, hold};
use crate::rattle_std::AllocError;
use crate::proved::tool_ranges::version_range::VersionRange;

/// Why not all lines were taken.
#[derive(Clone, Copy, PartialEq, Eq, Debug)]
pub enum LinesError {
    /// An allocation failed.
    OutOfMemory,
    /// The line with this number is not empty and has no version. The first line is line 1.
    NoVersion(u64),
}

impl crate::rattle_std::fmt::Display for LinesError {
    fn fmt(&self, f: &mut crate::rattle_std::fmt::Formatter<'_>) -> crate::rattle_std::fmt::Result {
        match self {
            LinesError::OutOfMemory => write!(f, "out of memory"),
            LinesError::NoVersion(_0) => write!(f, "line {_0} has no version"),
        }
    }
}

#[cfg(feature = "std")]
impl crate::rattle_std::Error for LinesError {}

impl From<AllocError> for LinesError {
    fn from(_error: AllocError) -> LinesError {
        LinesError::OutOfMemory
    }
}

/// The lines of a text that comes in pieces of any length, and the filter that keeps some of them.
///
/// A line ends with a line feed, or with a zero byte ([`LineEnd`](crate::proved::release_filter::line_texts::LineEnd)); the
/// last one may have no end. Its text is the line without its end, and without one carriage return
/// before a line feed. A line is kept if its text is one of the prefixes followed by a version that
/// matches, in the dialect of the filter. The crate's and npm's dialects allow white space around
/// the version. The first prefix after which the text spells a version decides. Without any prefix
/// it is as with the empty one. A text of more than 1,048,576 bytes has no version.
///
/// A byte order mark at the beginning of the text is dropped, even if it is cut between pieces.
///
/// A line that continues in the next piece is held until it ends, but no more of it than shows that
/// its text is too long. So memory is bounded, however long a line is. After an error only the
/// counts can be used.
pub struct Lines {
    fold: Fold,
    at_front: bool,
    begun: Vec<u8>,
}

/// The options for lines, and the state after the lines so far.
pub(crate) struct Fold {
    pub(crate) judge: Judge,
    pub(crate) is_strict: bool,
    pub(crate) held: Held,
    pub(crate) counts: Counts,
}

impl Lines {
    /// Returns the lines of a text from which no byte was taken yet.
    #[must_use]
    pub fn new(
        filter: VersionRange,
        prefixes: Vec<String>,
        options: LineOptions,
    ) -> Lines {
        Lines {
            fold: Fold {
                judge: Judge {
                    range: filter,
                    prefixes,
                    ending: options.ending,
                    strips_prefix: options.strips_prefix,
                },
                is_strict: options.is_strict,
                held: Held::new(options.selection),
                counts: Counts::new(),
            },
            at_front: true,
            begun: Vec::new(),
        }
    }

    /// Takes the next bytes of the text. Of the lines that end in them, it appends the kept ones
    /// that are wanted at once.
    ///
    /// # Errors
    ///
    /// `OutOfMemory` if an allocation fails. `NoVersion`, only if the lines are strict, for the
    /// first line that isn't empty and has no version. Lines before the error were taken: their
    /// output was appended, and they are counted. After an error only the counts can be used.
    ///
    /// # Details
    ///
    /// A kept line is appended as it is, with the byte that ends it. Only a byte order mark at the
    /// beginning of the text is left out, and the prefix if prefixes are stripped. The output for a
    /// text doesn't depend on how it is cut into pieces.
    pub fn push(
        &mut self,
        piece: &[u8],
        kept: &mut Vec<u8>,
    ) -> Result<(), LinesError> {
        let (first, whole, begun) = cut(piece, self.fold.judge.ending);
        if first.is_empty() {
            return self.begin_line(begun);
        }
        self.end_line(first, kept)?;
        self.at_front = false;
        self.fold.take_all(whole, kept)?;
        self.begin_line(begun)
    }

    /// Takes the end of the text, and the last line if it has no end of its own, and appends the
    /// rest of the output.
    ///
    /// # Errors
    ///
    /// `OutOfMemory` if an allocation fails. `NoVersion`, only if the lines are strict, if the last
    /// line isn't empty and has no version; it is counted. After an error only the counts can be
    /// used.
    ///
    /// # Details
    ///
    /// A last line without an end gets one if the lines are sorted; otherwise it stays as it is.
    /// After that, no byte of a text was taken, as after [`Lines::new`], so another text can be
    /// pushed. The lines of both texts are counted.
    pub fn finish(&mut self, kept: &mut Vec<u8>) -> Result<(), LinesError> {
        let closes = self.fold.held.selection.closes_lines();
        self.end(closes, kept)?;
        self.fold.held.finish(kept)?;
        Ok(())
    }

    /// Takes the end of a file that is followed by another one in the same text. Its last line gets
    /// an end if it has none of its own, and a byte order mark at the beginning of the next file is
    /// dropped.
    ///
    /// # Errors
    ///
    /// `OutOfMemory` if an allocation fails. `NoVersion`, only if the lines are strict, if the last
    /// line isn't empty and has no version; it is counted. After an error only the counts can be
    /// used.
    pub fn end_file(&mut self, kept: &mut Vec<u8>) -> Result<(), LinesError> {
        self.end(true, kept)
    }

    /// Returns the counts of the lines so far. It does not allocate.
    #[must_use]
    pub fn counts(&self) -> &Counts {
        &self.fold.counts
    }

    /// Takes the end of a file. A last line without an end gets one if `closes`.
    fn end(&mut self, closes: bool, kept: &mut Vec<u8>) -> Result<(), LinesError> {
        let line = after_mark(self.at_front, self.begun.as_slice());
        let end = [self.fold.judge.ending.byte()];
        let end = closing(closes, line, &end);
        self.end_line(end, kept)?;
        self.at_front = true;
        Ok(())
    }

    /// Holds more bytes of the line that has begun, if they may be needed.
    fn begin_line(&mut self, bytes: &[u8]) -> Result<(), LinesError> {
        hold(&mut self.begun, bytes)?;
        Ok(())
    }

    /// Takes the line that has begun, with these bytes appended, unless it is empty then.
    fn end_line(&mut self, end: &[u8], kept: &mut Vec<u8>) -> Result<(), LinesError> {
        hold(&mut self.begun, end)?;
        let line = after_mark(self.at_front, self.begun.as_slice());
        let taken = self.fold.take_some(line, kept);
        self.begun.clear();
        taken
    }
}

impl Fold {
    /// Takes all lines of some bytes. The last one may have no end.
    fn take_all(
        &mut self,
        bytes: &[u8],
        kept: &mut Vec<u8>,
    ) -> Result<(), LinesError> {
        let mut rest = bytes;
        while !rest.is_empty() {
            let line = first_line(rest, self.judge.ending);
            self.take(line, kept)?;
            rest = &rest[line.len()..];
        }
        Ok(())
    }

    /// Takes a line.
    #[inline(always)]
    fn take(&mut self, line: &[u8], kept: &mut Vec<u8>) -> Result<(), LinesError> {
        let judged = self.judge.judge(line);
        self.held.keep(&judged, kept)?;
        let is_valid = self.counts.count(&judged)?;
        if self.is_strict && !is_valid {
            return Err(LinesError::NoVersion(self.counts.lines));
        }
        Ok(())
    }

    /// Takes a line, unless it is empty.
    fn take_some(
        &mut self,
        line: &[u8],
        kept: &mut Vec<u8>,
    ) -> Result<(), LinesError> {
        if line.is_empty() {
            return Ok(());
        }
        self.take(line, kept)
    }
}
