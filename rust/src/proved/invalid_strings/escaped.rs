// Made by tools/erase.py from crates/invalid_strings/src/escaped.rt; not edited by hand.
//! A string as it is shown in a message.

use crate::rattle_std::prelude::*;
use crate::rattle_std::fmt;

/// A string as it is shown in a message: printable ASCII characters are shown as they are, except
/// for `"` and `\`, which have a backslash before them. Any other character is escaped: `\t`, `\n`,
/// `\r`, or its number in hexadecimal, as in `\u{2013}`. So no character of the string can end the
/// line, control a terminal, or look like another one, each takes as many columns as it has bytes,
/// and no table of Unicode decides what is shown.
#[derive(Clone, Copy)]
pub struct Escaped<'text> {
    /// The string.
    pub text: &'text str,
}

impl fmt::Display for Escaped<'_> {
    fn fmt(&self, f: &mut fmt::Formatter<'_>) -> fmt::Result {
        write_escaped(f, self.text)
    }
}

/// Writes the characters of a string as they are shown, whatever options the formatter has.
pub fn write_escaped(f: &mut fmt::Formatter<'_>, text: &str) -> fmt::Result {
    for character in text.chars() {
        write_character(f, character)?;
    }
    Ok(())
}

/// Writes a character as it is shown, whatever options the formatter has.
pub fn write_character(f: &mut fmt::Formatter<'_>, character: char) -> fmt::Result {
    match character {
        '"' => f.write_str("\\\""),
        '\\' => f.write_str("\\\\"),
        '\t' => f.write_str("\\t"),
        '\n' => f.write_str("\\n"),
        '\r' => f.write_str("\\r"),
        ' '..='~' => write_unchanged(f, character),
        _ => write_number(f, u32::from(character)),
    }
}

/// Writes a character as it is.
fn write_unchanged(f: &mut fmt::Formatter<'_>, character: char) -> fmt::Result {
    let mut bytes = [0; 4];
    f.write_str(character.encode_utf8(&mut bytes))
}

/// Writes the number of a character in braces.
fn write_number(f: &mut fmt::Formatter<'_>, number: u32) -> fmt::Result {
    f.write_str("\\u{")?;
    write_hexadecimal(f, number)?;
    f.write_str("}")
}

/// Writes a number in hexadecimal.
fn write_hexadecimal(f: &mut fmt::Formatter<'_>, number: u32) -> fmt::Result {
    if number < 16 {
        return write_digit(f, number as u8);
    }
    write_hexadecimal(f, number / 16)?;
    write_digit(f, (number % 16) as u8)
}

/// Writes the digit of a number below 16.
fn write_digit(f: &mut fmt::Formatter<'_>, number: u8) -> fmt::Result {
    let digit = if number < 10 {
        b'0' + number
    } else {
        b'a' - 10 + number
    };
    write_unchanged(f, char::from(digit))
}

/// Writes a mark for each column that a string takes as it is shown.
pub fn write_marks(f: &mut fmt::Formatter<'_>, mark: &str, text: &str) -> fmt::Result {
    for character in text.chars() {
        write_times(f, mark, columns(character))?;
    }
    Ok(())
}

/// Writes a mark a number of times.
fn write_times(f: &mut fmt::Formatter<'_>, mark: &str, times: u32) -> fmt::Result {
    for _ in 0..times {
        f.write_str(mark)?;
    }
    Ok(())
}

/// Returns how many columns a character takes as it is shown.
fn columns(character: char) -> u32 {
    match character {
        '"' | '\\' | '\t' | '\n' | '\r' => 2,
        ' '..='~' => 1,
        _ => 4 + hexadecimal_digits(u32::from(character)),
    }
}

/// Returns how many digits a number has in hexadecimal.
fn hexadecimal_digits(number: u32) -> u32 {
    if number < 16 {
        1
    } else {
        1 + hexadecimal_digits(number / 16)
    }
}
