// Made by tools/erase.py from crates/semver_parser_main/src/main.rt; not edited by hand.
//! The program `semver-parser [TEXT]`: arguments and exit status.
#![cfg(feature = "std")]

use crate::rattle_std::prelude::*;
use crate::proved::semver_parser::report;
use crate::rattle_std::env;
use crate::rattle_std::process::ExitCode;
use crate::rattle_std::rt::Env;

/// The string if there is no argument.
const DEFAULT_TEXT: &str = "1.2.3";

/// The error if there is not at most one argument.
enum Refusal {
    /// The arguments can't be read.
    Unreadable,
    /// There is more than one argument.
    TooMany,
}

pub fn main(rt: HostRuntime) -> ExitCode {
    let text = match only_argument(&rt) {
        Ok(text) => text,
        Err(Refusal::Unreadable) => return refused(&rt, "cannot read arguments"),
        Err(Refusal::TooMany) => return refused(&rt, "usage: semver-parser [TEXT]"),
    };
    let text = text.as_ref().map_or(DEFAULT_TEXT, |text| text.as_str());
    let ran = report::run(text, &mut rt.stdout());
    if ran.is_err() {
        say(&rt, "cannot write output");
    }
    ExitCode::from(report::status(&ran))
}

/// Returns the only argument, or `None` if there is none.
fn only_argument(rt: &(impl Env + AllocGlobal)) -> Result<Option<String>, Refusal> {
    let Ok(mut arguments) = env::args(rt) else {
        return Err(Refusal::Unreadable);
    };
    let _program = arguments.next();
    let text = arguments.next();
    if arguments.next().is_some() {
        return Err(Refusal::TooMany);
    }
    Ok(text)
}

/// Writes the reason to standard error, and returns the status for arguments that aren't at most
/// one string.
fn refused(rt: &impl Eprint, why: &str) -> ExitCode {
    say(rt, why);
    ExitCode::from(2)
}

/// Writes the reason to standard error. If that fails, the exit status stays as it is.
fn say(rt: &impl Eprint, why: &str) {
    let _ = crate::rattle_std::fallible_eprintln!(rt; "{why}");
}
