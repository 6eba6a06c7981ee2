// Made by tools/erase.py from crates/command_line/src/program.rt; not edited by hand.
//! Messages of a program about itself and about errors.
#![cfg(feature = "std")]

use crate::rattle_std::prelude::*;
use crate::proved::command_line::error::ArgumentError;
use crate::proved::command_line::refused::{refused_text, refused_version};
use crate::proved::invalid_strings::escaped::Escaped;
use crate::proved::semver_parser::RangeError;
use crate::proved::semver_ranges::dialect::Dialect;
use crate::rattle_std::io::{self, ErrorKind};
use crate::rattle_std::process::ExitCode;

/// A program. Each line that it writes to standard error begins with its name. If a line can't be
/// written there, it is left out.
#[derive(Clone, Copy)]
pub struct Program {
    /// The name.
    pub name: &'static str,
}

impl Program {
    /// Writes strings to standard output, each with a line feed, and returns the status. It isn't
    /// an error if the reader closed the pipe.
    pub fn write_texts(self, rt: &HostRuntime, texts: &[&str]) -> ExitCode {
        for text in texts {
            match crate::rattle_std::fallible_println!(rt; "{text}") {
                Ok(()) => {}
                Err(error) if error.kind() == ErrorKind::BrokenPipe => return ExitCode::SUCCESS,
                Err(error) => return self.cannot_write(rt, &error),
            }
        }
        ExitCode::SUCCESS
    }

    /// Writes the error in the arguments in one line, and returns status 2.
    pub fn misused(self, rt: &impl Eprint, error: &ArgumentError) -> ExitCode {
        let name = self.name;
        let _ = match error {
            ArgumentError::NotUtf8 | ArgumentError::OutOfMemory => crate::rattle_std::fallible_eprintln!(rt; "{name}: {error}"),
            _ => crate::rattle_std::fallible_eprintln!(rt; "{name}: {error}; see {name} --help"),
        };
        ExitCode::from(2)
    }

    /// Reports that output can't be written, and returns status 2.
    pub fn cannot_write(self, rt: &impl Eprint, error: &io::Error) -> ExitCode {
        let _ = crate::rattle_std::fallible_eprintln!(rt; "{}: cannot write output: {error}", self.name);
        ExitCode::from(2)
    }

    /// Writes the error of a range, with the string and the offset, and returns status 2.
    pub fn refuse_range(
        self,
        rt: &HostRuntime,
        dialect: Dialect,
        error: &RangeError,
        range: &str,
    ) -> ExitCode {
        let shown = Escaped { text: range };
        let _ = match refused_text(dialect, error, range) {
            Ok(text) => crate::rattle_std::fallible_eprintln!(rt; "{}: {text}", self.name),
            Err(_) => crate::rattle_std::fallible_eprintln!(rt; "{}: {error}: \"{shown}\"", self.name),
        };
        ExitCode::from(2)
    }

    /// Writes the error of an invalid version, with the string and the offset, and returns status
    /// 2.
    pub fn refuse_version(self, rt: &HostRuntime, dialect: Dialect, version: &str) -> ExitCode {
        let shown = Escaped { text: version };
        let _ = match refused_version(dialect, version) {
            Ok(text) => crate::rattle_std::fallible_eprintln!(rt; "{}: {text}", self.name),
            Err(_) => crate::rattle_std::fallible_eprintln!(rt; "{}: invalid version: \"{shown}\"", self.name),
        };
        ExitCode::from(2)
    }

    /// Writes the errors of a range that is invalid in several tools, and returns status 2. For
    /// each tool it writes its name, its dialect and its error.
    pub fn refuse_range_of_each(
        self,
        rt: &HostRuntime,
        tools: &[(&str, Dialect, &RangeError)],
        range: &str,
    ) -> ExitCode {
        let shown = Escaped { text: range };
        for (tool, dialect, error) in tools {
            let _ = match refused_text(*dialect, error, range) {
                Ok(text) => crate::rattle_std::fallible_eprintln!(rt; "{}: {tool}: {text}", self.name),
                Err(_) => crate::rattle_std::fallible_eprintln!(rt; "{}: {tool}: {error}: \"{shown}\"", self.name),
            };
        }
        ExitCode::from(2)
    }
}
