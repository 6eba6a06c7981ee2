// Made by tools/erase.py from crates/small_inputs/src/checksum.rt; not edited by hand.
//! A checksum of everything that some calls returned.
#![cfg(feature = "std")]

use crate::rattle_std::prelude::*;
use crate::rattle_std::io::Write;
use crate::rattle_std::{fmt, io};

/// The largest prime number below 2^54.
const MODULUS: u64 = 18014398509481951;

/// A writer that keeps only a checksum of what is written: the value at 257 of the polynomial whose
/// coefficients are 1 and the bytes, modulo a prime number. A number can be written as one
/// coefficient, too.
pub struct Checksum {
    sum: u64,
}

impl Checksum {
    /// Returns the checksum of nothing.
    pub fn new() -> Checksum {
        Checksum { sum: 1 }
    }

    /// Appends a number, as one coefficient.
    pub fn add(&mut self, number: u64) {
        self.sum = (self.sum % MODULUS * 257 + number % MODULUS) % MODULUS;
    }

    /// Appends bytes, and 256 as their end.
    pub fn add_bytes(&mut self, bytes: &[u8]) {
        for byte in bytes {
            self.add(u64::from(*byte));
        }
        self.add(256);
    }
}

impl Write for Checksum {
    fn write(&mut self, buf: &[u8]) -> io::Result<usize> {
        for byte in buf {
            self.add(u64::from(*byte));
        }
        Ok(buf.len())
    }

    fn flush(&mut self) -> io::Result<()> {
        Ok(())
    }
}

impl fmt::Display for Checksum {
    fn fmt(&self, f: &mut fmt::Formatter<'_>) -> fmt::Result {
        let sum = self.sum;
        write!(f, "{sum}")
    }
}
