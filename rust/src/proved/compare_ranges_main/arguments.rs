// Made by tools/erase.py from crates/compare_ranges_main/src/arguments.rt; not edited by hand.
//! Reads the arguments.
#![cfg(feature = "std")]

use crate::rattle_std::prelude::*;
use crate::proved::command_line::{ArgumentError, MeaningOptions, take_once};
use crate::rattle_std::env;
use crate::rattle_std::rt::Env;
use crate::proved::tool_ranges::meaning::Rules;

/// The request of the arguments.
pub enum Request {
    /// To print what one range contains, to raise it, or to compare two.
    Read(Question),
    /// To print the usage.
    Help,
    /// To print the version of the program.
    Version,
}

/// The ranges in the arguments, and the options.
pub struct Question {
    /// The range. If there are two, the old one.
    pub range: String,
    /// The new range, if there are two.
    pub new: Option<String>,
    /// The dialect, and which pre-releases count.
    pub meaning: Rules,
    /// Whether an option requested the dialect.
    pub has_dialect: bool,
    /// What is printed, and for which change the status is 1.
    pub options: Options,
}

/// How versions are printed.
#[derive(Clone, Copy)]
pub enum Extent {
    /// All of them, as ranges.
    Whole,
    /// Only the lowest of them.
    Lowest,
}

/// The change between two ranges for which the status is 1.
#[derive(Clone, Copy)]
pub enum Change {
    /// Versions are lost.
    Lost,
    /// Versions are gained.
    Gained,
    /// Either.
    Any,
}

/// The options that only this program has.
pub struct Options {
    /// How versions are printed.
    pub extent: Extent,
    /// Whether the output is JSON.
    pub is_json: bool,
    /// The change that `--fail-on` names.
    pub fails_on: Option<Change>,
    /// The version to which the range has to be raised.
    pub version: Option<String>,
    /// Whether the next argument is that change.
    wants_change: bool,
    /// Whether the next argument is that version.
    wants_version: bool,
    /// Whether options may follow.
    has_more: bool,
}

impl Options {
    /// Returns the defaults.
    fn new() -> Options {
        Options {
            extent: Extent::Whole,
            is_json: false,
            fails_on: None,
            version: None,
            wants_change: false,
            wants_version: false,
            has_more: true,
        }
    }

    /// Takes an option, and returns whether it is known.
    fn take(&mut self, option: &str) -> Result<bool, ArgumentError> {
        if let Some(change) = option.strip_prefix("--fail-on=") {
            self.take_change(change)?;
            return Ok(true);
        }
        if let Some(version) = option.strip_prefix("--upgrade=") {
            self.take_version(version)?;
            return Ok(true);
        }
        match option {
            "--lowest" | "--least" => self.take_lowest()?,
            "--json" => take_once("--json", &mut self.is_json)?,
            "--fail-on" => self.wants_change = true,
            "--upgrade" => self.wants_version = true,
            "--" => self.has_more = false,
            _ => return Ok(false),
        }
        Ok(true)
    }

    /// Takes the option to print only the lowest versions.
    fn take_lowest(&mut self) -> Result<(), ArgumentError> {
        match self.extent {
            Extent::Lowest => Err(ArgumentError::GivenTwice("--lowest")),
            Extent::Whole => {
                self.extent = Extent::Lowest;
                Ok(())
            }
        }
    }

    /// Takes the change for which the status is 1.
    fn take_change(&mut self, change: &str) -> Result<(), ArgumentError> {
        self.wants_change = false;
        if self.fails_on.is_some() {
            return Err(ArgumentError::GivenTwice("--fail-on"));
        }
        self.fails_on = match change {
            "lost" => Some(Change::Lost),
            "gained" => Some(Change::Gained),
            "any" => Some(Change::Any),
            _ => return Err(ArgumentError::NoChange),
        };
        Ok(())
    }

    /// Takes the version to which the range has to be raised.
    fn take_version(&mut self, version: &str) -> Result<(), ArgumentError> {
        self.wants_version = false;
        if self.version.is_some() {
            return Err(ArgumentError::GivenTwice("--upgrade"));
        }
        self.version = Some(version.fallible_to_string()?);
        Ok(())
    }

    /// Returns an error if options don't belong together, or to this number of ranges.
    fn check(&self, has_new: bool) -> Result<(), ArgumentError> {
        if self.fails_on.is_some() && !has_new {
            return Err(ArgumentError::NoComparison);
        }
        if self.version.is_none() {
            return Ok(());
        }
        match self.extent {
            _ if has_new => Err(ArgumentError::TwoToUpgrade),
            _ if self.is_json => Err(ArgumentError::Contradiction("--json", "--upgrade")),
            Extent::Lowest => Err(ArgumentError::Contradiction("--lowest", "--upgrade")),
            Extent::Whole => Ok(()),
        }
    }
}

/// Returns the request of the arguments. An argument that begins with a hyphen is an option, up to
/// the first `--`. This doesn't apply to the values of `--dialect`, `--as`, `--fail-on` and
/// `--upgrade`.
pub fn requested(rt: &(impl Env + AllocGlobal)) -> Result<Request, ArgumentError> {
    let mut arguments = env::args(rt)?;
    let _program = arguments.next();
    let mut range = None;
    let mut new = None;
    let mut meaning = MeaningOptions::new();
    let mut options = Options::new();
    for argument in arguments {
        if options.wants_change {
            options.take_change(argument.as_str())?;
            continue;
        }
        if options.wants_version {
            options.take_version(argument.as_str())?;
            continue;
        }
        if options.has_more && meaning.take(argument.as_str())? {
            continue;
        }
        match argument.as_str() {
            "-h" | "--help" if options.has_more => return Ok(Request::Help),
            "--version" if options.has_more => return Ok(Request::Version),
            text if options.has_more && text.starts_with('-') => {
                if !options.take(text)? {
                    let is_needless = ArgumentError::has_needless_value(text, |name| {
                        !matches!(meaning.take(name), Ok(false))
                            || !matches!(options.take(name), Ok(false))
                    });
                    return Err(ArgumentError::not_taken(argument, is_needless));
                }
            }
            _ if new.is_some() => return Err(ArgumentError::MoreThanTwoRanges),
            _ if range.is_some() => new = Some(argument),
            _ => range = Some(argument),
        }
    }
    request_of(range, new, meaning, options)
}

/// Returns the request of arguments that are taken one by one.
fn request_of(
    range: Option<String>,
    new: Option<String>,
    meaning: MeaningOptions,
    options: Options,
) -> Result<Request, ArgumentError> {
    if options.wants_change {
        return Err(ArgumentError::NoChange);
    }
    if options.wants_version {
        return Err(ArgumentError::NoVersion);
    }
    let has_dialect = meaning.has_dialect();
    let meaning = meaning.finish()?;
    let Some(range) = range else {
        return Err(ArgumentError::NoRange("OLD NEW, or one RANGE"));
    };
    options.check(new.is_some())?;
    Ok(Request::Read(Question {
        range,
        new,
        meaning,
        has_dialect,
        options,
    }))
}
