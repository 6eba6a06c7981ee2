// Made by tools/erase.py from crates/release_filter_main/src/arguments.rt; not edited by hand.
//! Reads the arguments.
#![cfg(feature = "std")]

use crate::rattle_std::prelude::*;
use crate::proved::command_line::{ArgumentError, MeaningOptions, take_once};
use crate::proved::release_filter::{LineEnd, LineOptions, Selection};
use crate::rattle_std::env;
use crate::rattle_std::rt::Env;
use crate::proved::tool_ranges::meaning::Rules;
use crate::proved::version_sets::PreReleases;

/// The request of the arguments.
pub enum Request {
    /// To filter lines.
    Filter(Filtering),
    /// To print the usage.
    Help,
    /// To print the version of the program.
    Version,
}

/// The filter that the arguments request, and its options.
pub struct Filtering {
    /// The range.
    pub range: String,
    /// The dialect, and which pre-releases count.
    pub meaning: Rules,
    /// Whether an option requested the dialect.
    pub has_dialect: bool,
    /// The files to read, or standard input if there are none.
    pub files: Vec<String>,
    /// The other options.
    pub options: Options,
}

/// The options that only this program has.
pub struct Options {
    /// The prefixes that are allowed before a version. The first prefix that is followed by a
    /// version decides.
    pub prefixes: Vec<String>,
    /// The options for lines.
    pub lines: LineOptions,
    /// Whether the order of the lines is reversed.
    is_reversed: bool,
    /// Whether only the number of lines is written.
    pub is_counted: bool,
    /// Whether input and output are arrays of strings in JSON.
    pub is_json: bool,
    /// Whether the versions that the range doesn't contain are wanted.
    pub is_inverted: bool,
    /// The kind of versions that are wanted, if only one kind is.
    pub only: Option<Kind>,
    /// The option that selected the wanted lines, if there is one.
    selecting: Option<&'static str>,
    /// Whether `--line-buffered` was given, which changes nothing.
    is_line_buffered: bool,
    /// The kind of value that is expected as the next argument, if one is.
    awaited: Option<Value>,
    /// Whether options may follow.
    has_more: bool,
}

/// A kind of versions.
#[derive(Clone, Copy, PartialEq, Eq)]
pub enum Kind {
    Releases,
    PreReleases,
}

/// The value of an option, if it is an argument of its own.
#[derive(Clone, Copy)]
enum Value {
    Prefix,
    Kind,
}

impl Options {
    /// Returns the defaults.
    fn new() -> Options {
        Options {
            prefixes: Vec::new(),
            lines: LineOptions::new(),
            is_reversed: false,
            is_counted: false,
            is_json: false,
            is_inverted: false,
            only: None,
            selecting: None,
            is_line_buffered: false,
            awaited: None,
            has_more: true,
        }
    }

    /// Takes an option, and returns whether it is known. It is an error if an earlier option has
    /// the same subject.
    fn take(&mut self, option: &str) -> Result<bool, ArgumentError> {
        if let Some(prefix) = option.strip_prefix("--prefix=") {
            push(&mut self.prefixes, prefix.fallible_to_string()?)?;
            return Ok(true);
        }
        if let Some(kind) = option.strip_prefix("--only=") {
            self.take_kind(kind)?;
            return Ok(true);
        }
        match option {
            "--" => self.has_more = false,
            "--prefix" => self.awaited = Some(Value::Prefix),
            "--only" => self.awaited = Some(Value::Kind),
            "--highest" | "--greatest" => self.select("--highest", Selection::Highest)?,
            "--lowest" | "--least" => self.select("--lowest", Selection::Lowest)?,
            "--sort" => self.select("--sort", Selection::Sorted)?,
            "--null" if self.lines.ending == LineEnd::ZeroByte => {
                return Err(ArgumentError::GivenTwice("--null"));
            }
            "--null" => self.lines.ending = LineEnd::ZeroByte,
            _ => return self.take_switch(option),
        }
        Ok(true)
    }

    /// Takes an option without a value, and returns whether it is known.
    fn take_switch(&mut self, option: &str) -> Result<bool, ArgumentError> {
        match option {
            "--invert" => take_once("--invert", &mut self.is_inverted)?,
            "--reverse" => take_once("--reverse", &mut self.is_reversed)?,
            "--strip-prefix" => take_once("--strip-prefix", &mut self.lines.strips_prefix)?,
            "--json" => take_once("--json", &mut self.is_json)?,
            "--count" => take_once("--count", &mut self.is_counted)?,
            "--strict" => take_once("--strict", &mut self.lines.is_strict)?,
            "--line-buffered" => take_once("--line-buffered", &mut self.is_line_buffered)?,
            _ => return Ok(false),
        }
        Ok(true)
    }

    /// Takes the option that selects the wanted lines.
    fn select(&mut self, option: &'static str, selection: Selection) -> Result<(), ArgumentError> {
        let earlier = self.selecting;
        match earlier {
            Some(_) if self.lines.selection == selection => Err(ArgumentError::GivenTwice(option)),
            Some(earlier) => Err(ArgumentError::Contradiction(option, earlier)),
            None => {
                self.lines.selection = selection;
                self.selecting = Some(option);
                Ok(())
            }
        }
    }

    /// Takes an argument that is the value of an option.
    fn take_value(&mut self, value: Value, argument: String) -> Result<(), ArgumentError> {
        self.awaited = None;
        match value {
            Value::Prefix => push(&mut self.prefixes, argument),
            Value::Kind => self.take_kind(argument.as_str()),
        }
    }

    /// Takes the kind of versions that are wanted.
    fn take_kind(&mut self, kind: &str) -> Result<(), ArgumentError> {
        if self.only.is_some() {
            return Err(ArgumentError::GivenTwice("--only"));
        }
        self.only = match kind {
            "releases" => Some(Kind::Releases),
            "pre-releases" => Some(Kind::PreReleases),
            _ => return Err(ArgumentError::NoKind),
        };
        Ok(())
    }

    /// Takes the option `--releases-only`, by which only releases are wanted.
    fn require_releases(&mut self) -> Result<(), ArgumentError> {
        if self.only == Some(Kind::PreReleases) {
            let only = "--only pre-releases";
            return Err(ArgumentError::Contradiction(only, "--releases-only"));
        }
        self.only = Some(Kind::Releases);
        Ok(())
    }

    /// Reverses the order of the lines, if they are sorted and the reverse order is wanted.
    fn end_order(&mut self) -> Result<(), ArgumentError> {
        if self.is_reversed {
            if self.lines.selection != Selection::Sorted {
                return Err(ArgumentError::NoOrder);
            }
            self.lines.selection = Selection::Reversed;
        }
        Ok(())
    }

    /// Makes a zero byte the end of each JSON string, since none has one.
    fn end_strings(&mut self) -> Result<(), ArgumentError> {
        if !self.is_json {
            return Ok(());
        }
        if self.lines.ending == LineEnd::ZeroByte {
            return Err(ArgumentError::Contradiction("--json", "--null"));
        }
        self.lines.ending = LineEnd::ZeroByte;
        Ok(())
    }
}

/// Appends a string.
fn push(texts: &mut Vec<String>, text: String) -> Result<(), ArgumentError> {
    match texts.fallible_push(text) {
        Ok(()) => Ok(()),
        Err(_) => Err(ArgumentError::OutOfMemory),
    }
}

/// Returns the request of the arguments. An argument that begins with a hyphen is an option, up to
/// the first `--`. This doesn't apply to a single `-`, and to the values of `--prefix`, `--only`,
/// `--dialect` and `--as`.
pub fn requested(rt: &(impl Env + AllocGlobal)) -> Result<Request, ArgumentError> {
    let mut arguments = env::args(rt)?;
    let _program = arguments.next();
    let mut range = None;
    let mut files = Vec::new();
    let mut meaning = MeaningOptions::new();
    let mut options = Options::new();
    for argument in arguments {
        if let Some(value) = options.awaited {
            options.take_value(value, argument)?;
            continue;
        }
        if options.has_more && meaning.take(argument.as_str())? {
            continue;
        }
        match argument.as_str() {
            "-h" | "--help" if options.has_more => return Ok(Request::Help),
            "--version" if options.has_more => return Ok(Request::Version),
            text if options.has_more && text.starts_with('-') && text != "-" => {
                if !options.take(text)? {
                    let is_needless = ArgumentError::has_needless_value(text, |name| {
                        !matches!(meaning.take(name), Ok(false))
                            || !matches!(options.take(name), Ok(false))
                    });
                    return Err(ArgumentError::not_taken(argument, is_needless));
                }
            }
            _ if range.is_some() => push(&mut files, argument)?,
            _ => range = Some(argument),
        }
    }
    request_of(range, files, meaning, options)
}

/// Returns the request of arguments that are taken one by one.
fn request_of(
    range: Option<String>,
    files: Vec<String>,
    meaning: MeaningOptions,
    mut options: Options,
) -> Result<Request, ArgumentError> {
    match options.awaited {
        Some(Value::Prefix) => return Err(ArgumentError::NoPrefix),
        Some(Value::Kind) => return Err(ArgumentError::NoKind),
        None => {}
    }
    options.end_order()?;
    options.end_strings()?;
    let has_dialect = meaning.has_dialect();
    let meaning = meaning.finish()?;
    if meaning.pre_releases == PreReleases::Excluded {
        options.require_releases()?;
    }
    match range {
        Some(range) => Ok(Request::Filter(Filtering {
            range,
            meaning,
            has_dialect,
            files,
            options,
        })),
        None => Err(ArgumentError::NoRange("RANGE [FILE]...")),
    }
}
