// Made by tools/erase.py from crates/release_filter/src/counts.rt; not edited by hand.
//! Counts the lines of a text, the kept ones, and the ones without a version, and keeps the first
//! of those.

use crate::rattle_std::prelude::*;
use crate::proved::release_filter::judge::Judged;
use crate::rattle_std::AllocError;

/// The number of bytes that are kept of the first invalid line.
const FRONT: usize = 81;

/// The number of lines of a text, and how many of them are kept or have no version. Each count
/// stops at 2^64 - 1.
#[derive(Debug)]
pub struct Counts {
    /// The lines that have ended. When the end of the text is taken, the last line is included.
    pub lines: u64,
    /// The kept lines, whichever of these are wanted.
    pub kept: u64,
    /// The lines whose text is empty.
    pub empty: u64,
    /// The invalid lines: they aren't empty, and have no version.
    pub invalid: u64,
    /// The first invalid line.
    pub first_invalid: Option<InvalidLine>,
}

/// A line that is not empty and has no version.
#[derive(Debug)]
pub struct InvalidLine {
    /// Its number, where the first line has number 1.
    pub number: u64,
    /// The first 81 bytes of its text, without the line's end, or all of it if it is shorter.
    pub front: Vec<u8>,
}

impl Counts {
    /// Returns counts of no lines.
    pub(crate) fn new() -> Counts {
        Counts {
            lines: 0,
            kept: 0,
            empty: 0,
            invalid: 0,
            first_invalid: None,
        }
    }

    /// Counts a line, given what the filter decided about it, and returns whether the line is
    /// valid. `Err` means out of memory.
    #[inline(always)]
    pub(crate) fn count(&mut self, judged: &Judged<'_>) -> Result<bool, AllocError> {
        match judged {
            Judged::NotAVersion(text) => return self.count_without_version(text),
            Judged::Outside => {}
            Judged::Kept(_, _) => self.kept = self.kept.saturating_add(1),
        }
        self.lines = self.lines.saturating_add(1);
        Ok(true)
    }

    /// Counts a line with this text, which has no version, and returns whether it is empty. `Err`
    /// means out of memory.
    fn count_without_version(&mut self, text: &[u8]) -> Result<bool, AllocError> {
        let number = self.lines.saturating_add(1);
        if text.is_empty() {
            self.lines = number;
            self.empty = self.empty.saturating_add(1);
            return Ok(true);
        }
        self.keep_first(number, text)?;
        self.lines = number;
        self.invalid = self.invalid.saturating_add(1);
        Ok(false)
    }

    /// Keeps the beginning of an invalid line with this number and text, if it is the first one.
    /// `Err` means out of memory.
    fn keep_first(&mut self, number: u64, text: &[u8]) -> Result<(), AllocError> {
        if self.first_invalid.is_none() {
            let front = Vec::fallible_from_slice(&text[..text.len().min(FRONT)])?;
            self.first_invalid = Some(InvalidLine { number, front });
        }
        Ok(())
    }
}
