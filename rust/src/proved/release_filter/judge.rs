// Made by tools/erase.py from crates/release_filter/src/judge.rt; not edited by hand.
//! Decides whether a line is kept. This depends only on its bytes.

use crate::rattle_std::prelude::*;
use crate::proved::release_filter::line_texts::{LONGEST, LineEnd, text_after, text_of};
use crate::proved::semver_versions::version::{VersionRef, read_ref_in};
use crate::proved::tool_ranges::version_range::VersionRange;

/// The range, and how the lines are read and written.
pub(crate) struct Judge {
    pub(crate) range: VersionRange,
    pub(crate) prefixes: Vec<String>,
    pub(crate) ending: LineEnd,
    pub(crate) strips_prefix: bool,
}

/// What was decided about a line.
pub(crate) enum Judged<'l> {
    /// Its text has no version. This is the text.
    NotAVersion(&'l [u8]),
    /// It has a version that the range doesn't contain.
    Outside,
    /// It has this version, which the range contains, and these are the bytes to write.
    Kept(VersionRef<'l>, &'l [u8]),
}

impl Judge {
    /// Decides about a line. The first prefix after which its text has a version decides. Without
    /// any prefix it is as with the empty one.
    #[inline(always)]
    pub(crate) fn judge<'l>(&self, line: &'l [u8]) -> Judged<'l> {
        let text = text_of(line, self.ending);
        if text.len() > LONGEST {
            return Judged::NotAVersion(text);
        }
        match self.prefixes.as_slice() {
            [] => self.judge_after("", text, line),
            prefixes => self.judge_after_each(prefixes, text, line),
        }
    }

    /// Decides about a line with this text, after the first of the prefixes after which it spells a
    /// version.
    fn judge_after_each<'l>(
        &self,
        prefixes: &[String],
        text: &'l [u8],
        line: &'l [u8],
    ) -> Judged<'l> {
        match prefixes {
            [] => Judged::NotAVersion(text),
            [prefix, prefixes @ ..] => match self.judge_after(prefix.as_str(), text, line) {
                Judged::NotAVersion(_) => self.judge_after_each(prefixes, text, line),
                judged => judged,
            },
        }
    }

    /// Decides about a line with this text, after this prefix.
    #[inline(always)]
    fn judge_after<'l>(&self, prefix: &str, text: &'l [u8], line: &'l [u8]) -> Judged<'l> {
        let Some(rest) = text_after(prefix, text) else {
            return Judged::NotAVersion(text);
        };
        let Some(version) = read_ref_in(rest, self.range.rules().dialect.grammar()) else {
            return Judged::NotAVersion(text);
        };
        if self.range.contains_ref(&version) {
            Judged::Kept(version, self.given(line, prefix.len()))
        } else {
            Judged::Outside
        }
    }

    /// Returns the bytes to write for a line that has a version after `count` bytes.
    #[inline(always)]
    fn given<'l>(&self, line: &'l [u8], count: usize) -> &'l [u8] {
        if self.strips_prefix {
            &line[count.min(line.len())..]
        } else {
            line
        }
    }
}
