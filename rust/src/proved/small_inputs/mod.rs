// Made by tools/erase.py from crates/small_inputs/src/main.rt; not edited by hand.
//! Makes a call for every string of a length over an alphabet, and writes a checksum of everything
//! that it returned. Each line of standard input has the name of the call, the name of the alphabet
//! and the length, separated by spaces. `tests/small-inputs.sh` compares what the kit's build and
//! cargo's build of this program write.
#![cfg(feature = "std")]

use crate::rattle_std::prelude::*;
mod alphabets;
mod checksum;
mod lines;
mod ranges;
mod sets;
mod upgrades;
mod versions;

use checksum::Checksum;
use crate::rattle_std::io;
use crate::rattle_std::io::{BufRead, BufReader, BufWriter, Write};

pub fn main(rt: HostRuntime) -> io::Result<()> {
    let input = BufReader::new(rt.reader())?;
    let mut output = BufWriter::new(io::writer(&rt))?;
    for line in input.lines() {
        write_sum(line?.as_str(), &mut output)?;
        output.write_all(b"\n")?;
    }
    output.flush()
}

/// Writes a line of the input, and the number of its strings and the checksum after it.
fn write_sum<W: Write>(line: &str, out: &mut W) -> io::Result<()> {
    let (call, rest) = line.split_once(' ').unwrap_or((line, ""));
    let (name, length) = rest.split_once(' ').unwrap_or((rest, ""));
    let Ok(length) = length.parse::<u32>() else {
        return write!(out, "{line}: no length");
    };
    match name {
        "characters" => write_sum_over(line, call, &alphabets::CHARACTERS, length, out),
        "versions" => write_sum_over(line, call, &alphabets::VERSIONS, length, out),
        "ranges" => write_sum_over(line, call, &alphabets::RANGES, length, out),
        "lines" => write_sum_over(line, call, &alphabets::LINES, length, out),
        _ => write!(out, "{line}: no such alphabet"),
    }
}

/// Writes the checksum of a call for each string of a length over an alphabet.
fn write_sum_over<W: Write>(
    line: &str,
    call: &str,
    pieces: &[&[u8]],
    length: u32,
    out: &mut W,
) -> io::Result<()> {
    let mut sum = Checksum::new();
    let mut bytes = Vec::new();
    let count = alphabets::count(pieces, length);
    for number in 0..count {
        alphabets::spell(pieces, length, number, &mut bytes)?;
        if !add(call, bytes.as_slice(), &mut sum)? {
            return write!(out, "{line}: no such call");
        }
    }
    write!(out, "{line}: {count} strings, {sum}")
}

/// Adds what a call returns for a string to a checksum. Returns false if there is no such call.
fn add(call: &str, bytes: &[u8], sum: &mut Checksum) -> io::Result<bool> {
    match call {
        "parse" => versions::add_parsed(bytes, sum)?,
        "tokens" => versions::add_tokens(bytes, sum)?,
        "parser" => versions::add_steps(bytes, sum)?,
        "read" => versions::add_read(bytes, sum)?,
        "read-in" => versions::add_borrowed(bytes, sum)?,
        "compare" => versions::add_compared(bytes, sum)?,
        "explain" => versions::add_refused(bytes, sum)?,
        "contained" => sets::add_contained(bytes, sum)?,
        "range-set" => ranges::add_range_sets(bytes, sum)?,
        "comparators" => ranges::add_comparators(bytes, sum)?,
        "check" => ranges::add_checked(bytes, sum)?,
        "explain-range" => ranges::add_refused(bytes, sum)?,
        "terms" => ranges::add_terms(bytes, sum)?,
        "meets" => ranges::add_met(bytes, sum)?,
        "report" => ranges::add_report(bytes, sum)?,
        "satisfies" => sets::add_satisfied(bytes, sum)?,
        "set" => sets::add_sets(bytes, sum)?,
        "members" => sets::add_members(bytes, sum)?,
        "operations" => sets::add_operations(bytes, sum)?,
        "upgrade" => upgrades::add_raised(bytes, sum)?,
        "lines" => lines::add_lines(bytes, sum)?,
        _ => return Ok(false),
    }
    Ok(true)
}
