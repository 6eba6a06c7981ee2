// Made by tools/erase.py from crates/replayed_cases/src/main.rt; not edited by hand.
//! Replays a table of cases. Each line of standard input has a name, a call and a string, separated
//! by tabs. Two calls have a fourth field: the steps of a parser, or what `concat` adds. Each line
//! of standard output has the name and what the call returned, or after `sum-of-` the length and
//! the checksum of that. The wanted lines are in the file `stdout` of this crate. They come from
//! the published rows and from the Rust crate (`docs/TESTED.md`).
#![cfg(feature = "std")]

use crate::rattle_std::prelude::*;
pub mod checksum;
mod lexing;
mod parsing;
mod ranges;
pub mod text;
mod versions;

use checksum::Checksum;
use crate::proved::semver_parser::{Compat, RangeSet, version};
use crate::rattle_std::io;
use crate::rattle_std::io::{BufRead, BufReader, BufWriter, Write};

pub fn main(rt: HostRuntime) -> io::Result<()> {
    let input = BufReader::new(rt.reader())?;
    let mut output = BufWriter::new(io::writer(&rt))?;
    for line in input.lines() {
        replay(line?.as_str(), &mut output)?;
        output.write_all(b"\n")?;
    }
    output.flush()
}

/// Writes the name of a case and what its call returned.
fn replay<W: Write>(line: &str, out: &mut W) -> io::Result<()> {
    let Some((name, rest)) = line.split_once('\t') else {
        return write!(out, "no name");
    };
    let Some((call, rest)) = rest.split_once('\t') else {
        return write!(out, "no call");
    };
    let (text, steps) = rest.split_once('\t').unwrap_or((rest, ""));
    let (Some(text), Some(steps)) = (text::expanded(text)?, text::expanded(steps)?)
    else {
        return write!(out, "no text");
    };
    write!(out, "{name}: ")?;
    let Some(call) = call.strip_prefix("sum-of-") else {
        return answer(call, text.as_str(), steps.as_str(), out);
    };
    let mut sum = Checksum::new();
    answer(call, text.as_str(), steps.as_str(), &mut sum)?;
    write!(out, "{sum}")
}

/// Writes what a call returns for a string.
pub fn answer<W: Write>(
    call: &str,
    text: &str,
    steps: &str,
    out: &mut W,
) -> io::Result<()> {
    match call {
        "lex" => lexing::write_lexed(text, out),
        "kinds" => lexing::write_kinds(text, out),
        "parser" => parsing::write_steps(text, steps, out),
        "version" => versions::write_version(&version::parse(text), out),
        "version-text" => versions::write_printed(text, out),
        "error-text" => versions::write_error_text(text, out),
        "concat" => versions::write_joined(text, steps, out),
        "cargo" => ranges::write_set(&RangeSet::try_parse(text, Compat::Cargo), out),
        "npm" => ranges::write_set(&RangeSet::try_parse(text, Compat::Npm), out),
        "from-str" => ranges::write_printed(&RangeSet::try_from_str(text), out),
        "cargo-text" => {
            ranges::write_read_back(&RangeSet::try_parse(text, Compat::Cargo), out)
        }
        "npm-text" => {
            ranges::write_read_back(&RangeSet::try_parse(text, Compat::Npm), out)
        }
        "cargo-exact" => {
            ranges::write_read_back(
                &RangeSet::parse_exact(text, Compat::Cargo),
                out,
            )
        }
        "npm-exact" => {
            ranges::write_read_back(&RangeSet::parse_exact(text, Compat::Npm), out)
        }
        "report" => ranges::write_report(text, out),
        _ => write!(out, "no such call"),
    }
}
