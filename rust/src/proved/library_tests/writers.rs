// Made by tools/erase.py from crates/library_tests/src/writers.rt; not edited by hand.
//! A writer that fails once.
#![cfg(feature = "std")]

use crate::rattle_std::prelude::*;
use crate::rattle_std::AllocError;
use crate::rattle_std::io::{ErrorKind, Write};
use crate::rattle_std::{fmt, io};

/// How a writer fails.
#[derive(Clone, Copy)]
pub enum Refusal {
    /// It returns an error.
    Fail,
    /// A signal interrupts it.
    Interrupt,
    /// It takes no byte.
    TakeNone,
}

/// More bytes than any writer here takes in one call.
pub const ALL_AT_ONCE: usize = 0xffff_ffff;

/// Takes a given number of bytes, fails in the call that has more, and then takes everything. So it
/// shows what is written after a failure.
pub struct Limited {
    /// The bytes that it took.
    pub taken: Vec<u8>,
    /// How often it was called after it had failed.
    pub late_calls: u32,
    // How many more bytes it takes.
    left: usize,
    // How many bytes of one call it takes at most, if it may take less than all of them.
    most: usize,
    refusal: Refusal,
    has_refused: bool,
}

impl Limited {
    /// Returns a writer that takes `left` bytes, and at most `most` of them in one call that may
    /// take less.
    pub fn new(left: usize, most: usize, refusal: Refusal) -> Limited {
        Limited {
            taken: Vec::new(),
            late_calls: 0,
            left,
            most,
            refusal,
            has_refused: false,
        }
    }

    /// Takes bytes, whatever is left.
    fn take(&mut self, bytes: &[u8]) -> Result<(), AllocError> {
        if self.has_refused {
            self.late_calls = self.late_calls.saturating_add(1);
        }
        self.left = self.left.saturating_sub(bytes.len());
        self.taken.fallible_extend_from_slice(bytes)
    }
}

impl Write for Limited {
    fn write(&mut self, buf: &[u8]) -> io::Result<usize> {
        if self.left == 0 && !self.has_refused {
            self.has_refused = true;
            return match self.refusal {
                Refusal::Fail => Err(io::Error::from(ErrorKind::BrokenPipe)),
                Refusal::Interrupt => Err(io::Error::from(ErrorKind::Interrupted)),
                Refusal::TakeNone => Ok(0),
            };
        }
        let mut count = buf.len().min(self.most);
        if !self.has_refused {
            count = count.min(self.left);
        }
        self.take(&buf[..count])?;
        Ok(count)
    }

    fn flush(&mut self) -> io::Result<()> {
        Ok(())
    }
}

impl fmt::Write for Limited {
    fn write_str(&mut self, s: &str) -> fmt::Result {
        if s.len() > self.left && !self.has_refused {
            self.has_refused = true;
            return Err(fmt::Error);
        }
        self.take(s.as_bytes())?;
        Ok(())
    }
}
