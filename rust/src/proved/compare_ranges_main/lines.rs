// Made by tools/erase.py from crates/compare_ranges_main/src/lines.rt; not edited by hand.
//! Prints sets of versions: as lines, or as a JSON object.
#![cfg(feature = "std")]

use crate::rattle_std::prelude::*;
use crate::proved::compare_ranges_main::arguments::{Extent, Options};
use crate::proved::semver_parser::version::Version;
use crate::rattle_std::AllocError;
use crate::proved::version_sets::{Combination, OperationError, SetRanges, VersionSet};

/// The output so far.
pub struct Output {
    /// The lines, or the members of the object.
    text: String,
    /// How versions are printed.
    extent: Extent,
    /// Whether the output is JSON.
    is_json: bool,
}

impl Output {
    /// Returns an empty output.
    pub fn new(options: &Options) -> Output {
        Output {
            text: String::new(),
            extent: options.extent,
            is_json: options.is_json,
        }
    }

    /// Returns the whole output.
    pub fn finish(self) -> Result<String, AllocError> {
        if !self.is_json {
            return Ok(self.text);
        }
        let mut object = String::new();
        write!(object, "{{{}}}\n", self.text)?;
        Ok(object)
    }

    /// Appends the versions that two ranges lose, gain and share.
    pub fn push_two(
        &mut self,
        old: &VersionSet,
        new: &VersionSet,
    ) -> Result<(), OperationError> {
        match self.extent {
            Extent::Whole => {
                let (alone, both) = (Combination::Difference, Combination::Intersection);
                self.push_whole("lost", &old.combined(alone, new)?)?;
                self.push_whole("gained", &new.combined(alone, old)?)?;
                self.push_whole("shared", &old.combined(both, new)?)?;
            }
            Extent::Lowest => {
                let comparison = old.compare(new)?;
                self.push_lowest("lost", &comparison.lost)?;
                self.push_lowest("gained", &comparison.gained)?;
                self.push_lowest("shared", &comparison.shared)?;
            }
        }
        if self.is_json {
            self.begin_member("equal")?;
            self.text
                .fallible_push_str(if old == new { "true" } else { "false" })?;
        }
        Ok(())
    }

    /// Appends the versions in one range, labelled with a word, or that there are none.
    pub fn push_range(
        &mut self,
        word: &str,
        range: &VersionSet,
    ) -> Result<(), AllocError> {
        if range.is_empty() && !self.is_json {
            return self.push_text(word, "no version");
        }
        match self.extent {
            Extent::Whole => self.push_whole(word, range),
            Extent::Lowest => self.push_lowest(word, &range.lowest()?),
        }
    }

    /// Appends a string, labelled with a word.
    fn push_text(&mut self, word: &str, text: &str) -> Result<(), AllocError> {
        write!(self.text, "{word}: {text}\n")
    }

    /// Appends why there is no range, labelled with a word. In JSON, the label has null, and
    /// another member has the reason.
    pub fn push_error(&mut self, word: &str, why: &str) -> Result<(), AllocError> {
        if !self.is_json {
            return self.push_text(word, why);
        }
        self.begin_members()?;
        write!(self.text, "\"{word}\": null, \"{word}_error\": ")?;
        write_string(&mut self.text, why)
    }

    /// Appends the releases and the pre-releases in a set.
    fn push_whole(
        &mut self,
        word: &str,
        set: &VersionSet,
    ) -> Result<(), AllocError> {
        self.push_ranges(word, "", &set.release_ranges()?)?;
        let suffix = if self.is_json {
            "_pre_releases"
        } else {
            " pre-releases"
        };
        self.push_ranges(word, suffix, &set.pre_release_ranges()?)
    }

    /// Appends ranges, if there are any. If there are none, nothing is added to the lines, and JSON
    /// has null.
    fn push_ranges(
        &mut self,
        word: &str,
        suffix: &str,
        ranges: &SetRanges,
    ) -> Result<(), AllocError> {
        let is_empty = ranges.range_set.ranges.is_empty();
        if !self.is_json {
            return if is_empty {
                Ok(())
            } else {
                write!(self.text, "{word}{suffix}: {ranges}\n")
            };
        }
        self.begin_members()?;
        if is_empty {
            write!(self.text, "\"{word}{suffix}\": null")
        } else {
            write!(self.text, "\"{word}{suffix}\": \"{ranges}\"")
        }
    }

    /// Appends a version, if there is one.
    fn push_lowest(&mut self, word: &str, version: &Option<Version>) -> Result<(), AllocError> {
        if !self.is_json {
            return match version {
                Some(version) => write!(self.text, "{word}: {version}\n"),
                None => Ok(()),
            };
        }
        self.begin_member(word)?;
        match version {
            Some(version) => write!(self.text, "\"{version}\""),
            None => self.text.fallible_push_str("null"),
        }
    }

    /// Begins a member of the object with its name.
    fn begin_member(&mut self, name: &str) -> Result<(), AllocError> {
        self.begin_members()?;
        write!(self.text, "\"{name}\": ")
    }

    /// Ends the previous members, if there are any.
    fn begin_members(&mut self) -> Result<(), AllocError> {
        if self.text.is_empty() {
            return Ok(());
        }
        self.text.fallible_push_str(", ")
    }
}

/// Writes a JSON string.
fn write_string(out: &mut String, text: &str) -> Result<(), AllocError> {
    out.fallible_push('"')?;
    for character in text.chars() {
        match character {
            '"' => out.fallible_push_str("\\\"")?,
            '\\' => out.fallible_push_str("\\\\")?,
            _ => out.fallible_push(character)?,
        }
    }
    out.fallible_push('"')
}
