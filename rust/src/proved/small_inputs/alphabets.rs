// Made by tools/erase.py from crates/small_inputs/src/alphabets.rt; not edited by hand.
//! The alphabets. A string of a length consists of that many pieces of an alphabet.

use crate::rattle_std::prelude::*;
use crate::rattle_std::AllocError;

/// Every class of characters and bytes that some call distinguishes.
pub const CHARACTERS: [&[u8]; 30] = [
    b"0",
    b"1",
    b"9",
    b"a",
    b"Z",
    b"x",
    b"X",
    b"*",
    b".",
    b"-",
    b"+",
    b" ",
    b"\t",
    b"\n",
    b"\r",
    b"\0",
    b"v",
    b"V",
    b"=",
    b"<",
    b">",
    b"~",
    b"^",
    b"|",
    b",",
    b"_",
    b"\xc2\xa0",
    b"\xef\xbb\xbf",
    b"\xc3\xa9",
    b"\xff",
];

/// What versions consist of.
pub const VERSIONS: [&[u8]; 13] = [
    b"1.2.3",
    b"0",
    b"1",
    b"01",
    b"a",
    b".",
    b"-",
    b"+",
    b" ",
    b"v",
    b"9007199254740991",
    b"9007199254740992",
    b"18446744073709551616",
];

/// What ranges consist of.
pub const RANGES: [&[u8]; 21] = [
    b"1.2.3",
    b"-a.1",
    b"0",
    b"1",
    b"x",
    b"*",
    b".",
    b"-",
    b" - ",
    b" ",
    b"||",
    b",",
    b"<",
    b">",
    b"=",
    b"~",
    b"^",
    b"v",
    b"9007199254740991",
    b"18446744073709551615",
    b"18446744073709551616",
];

/// What lines consist of.
pub const LINES: [&[u8]; 12] = [
    b"1.2.3",
    b"1.2.3-a",
    b"1.10.0",
    b"2.0.0",
    b"v",
    b"x",
    b" ",
    b"\n",
    b"\r",
    b"\0",
    b"\xef\xbb\xbf",
    b"\xff",
];

/// Returns the number of strings of a length.
pub fn count(pieces: &[&[u8]], length: u32) -> usize {
    let mut count = 1;
    for _ in 0..length {
        count = pieces.len().saturating_mul(count);
    }
    count
}

/// Makes the string with a number: that of its pieces, whose indices are the digits of the number.
pub fn spell(
    pieces: &[&[u8]],
    length: u32,
    number: usize,
    bytes: &mut Vec<u8>,
) -> Result<(), AllocError> {
    bytes.clear();
    let mut rest = number;
    let base = pieces.len();
    for _ in 0..length {
        if base == 0 {
            break;
        }
        if let Some(piece) = pieces.get(rest % base) {
            bytes.fallible_extend_from_slice(piece)?;
        }
        rest /= base;
    }
    Ok(())
}
