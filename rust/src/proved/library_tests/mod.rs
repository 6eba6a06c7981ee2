// Made by tools/erase.py from crates/library_tests/src/main.rt; not edited by hand.
//! Tests of the port that need more than data. First it tests the results of functions: versions
//! read from bytes, the derived orders and precedence, and values made by hand. Then it tests what
//! they write: printed values, whole writes and the report, to writers that fail. Last it runs the
//! example of docs/COMING_FROM.md, and the functions that allocate. It writes what it found. The
//! wanted output is in the file `stdout` of this crate; it comes from the written rules and from
//! the declarations of the Rust crate.
//!
//! If standard input has a number, it only makes that number of requests for memory, and then calls
//! the functions that allocate (`./test`, `requests`).
#![cfg(feature = "std")]

use crate::rattle_std::prelude::*;
mod bytes;
mod example;
mod made;
mod orders;
mod precedence;
mod printing;
mod refused;
mod reports;
mod writers;
mod writes;

use crate::rattle_std::io;
use crate::rattle_std::io::Read;

pub fn main(rt: HostRuntime) -> io::Result<()> {
    let requests = read_number(&mut rt.stdin())?;
    if requests.is_none() {
        write_values(&rt)?;
        write_writes(&rt)?;
        let _ = example::write_operators(&rt);
    }
    refused::write_calls(&rt, requests.unwrap_or(0))
}

/// Returns the number in the input, or `None` if the input is empty.
fn read_number(input: &mut impl Read) -> io::Result<Option<u32>> {
    let mut digits = [0u8; 8];
    let count = input.read(&mut digits)?;
    let mut number = None;
    for digit in &digits[..count] {
        if digit.is_ascii_digit() {
            let so_far: u32 = number.unwrap_or(0);
            let value = u32::from(digit - b'0');
            number = Some(so_far.saturating_mul(10).saturating_add(value));
        }
    }
    Ok(number)
}

/// Tests the results of functions.
fn write_values(rt: &HostRuntime) -> io::Result<()> {
    bytes::write_bytes(rt)?;
    orders::write_enums(rt)?;
    orders::write_structs(rt)?;
    precedence::write_precedence(rt)?;
    made::write_versions(rt)?;
    made::write_sets(rt)
}

/// Tests what functions write.
fn write_writes(rt: &HostRuntime) -> io::Result<()> {
    printing::write_versions(rt)?;
    printing::write_sets(rt)?;
    printing::write_errors(rt)?;
    writes::write_writes(rt)?;
    reports::write_report(rt)
}
