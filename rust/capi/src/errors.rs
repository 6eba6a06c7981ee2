//! Why a call returns no result, and how this is reported.

use crate::shared::{explain_range, explain_version, AllocError, Dialect, Expected, RangeError};
use crate::shared::Reason;

pub type Status = i32;
pub const OK: Status = 0;
const INVALID_RANGE: Status = 1;
const NUMBER_TOO_LARGE: Status = 2;
const INVALID_VERSION: Status = 3;
const OUT_OF_MEMORY: Status = 4;
const INVALID_ARGUMENT: Status = 5;
const DIFFERENT_DIALECTS: Status = 6;
const DIFFERENT_PRE_RELEASES: Status = 7;
const CANNOT_UPGRADE: Status = 8;

/// semver_parser_error.
#[repr(C)]
#[derive(Default)]
pub struct Error {
    pub status: Status,
    pub reason: i32,
    pub offset: usize,
    index: usize,
    reserved: [u64; 4],
}

impl Error {
    /// Returns what the string of the error is meant as, or `None` if the error isn't about a
    /// string.
    pub fn expected(&self) -> Option<Expected> {
        match self.status {
            INVALID_VERSION => Some(Expected::Version),
            INVALID_RANGE | NUMBER_TOO_LARGE => Some(Expected::Range),
            _ => None,
        }
    }

    /// Returns whether a range can't be raised to a version.
    pub fn is_about_upgrade(&self) -> bool {
        self.status == CANNOT_UPGRADE
    }
}

/// What is wrong with a call. `index` says which of its strings is wrong. If two ranges have
/// different options, it is the second one.
pub enum Problem<'a> {
    Argument,
    Memory,
    Dialects,
    PreReleases,
    Upgrade,
    Version { bytes: &'a [u8], dialect: Dialect, index: usize },
    NotUtf8 { offset: usize, index: usize },
    Range { error: RangeError, range: &'a str, dialect: Dialect, index: usize },
}

impl From<AllocError> for Problem<'_> {
    fn from(_: AllocError) -> Self {
        Problem::Memory
    }
}

impl Problem<'_> {
    pub fn status(&self) -> Status {
        match self {
            Problem::Argument => INVALID_ARGUMENT,
            Problem::Dialects => DIFFERENT_DIALECTS,
            Problem::PreReleases => DIFFERENT_PRE_RELEASES,
            Problem::Upgrade => CANNOT_UPGRADE,
            Problem::Memory | Problem::Range { error: RangeError::OutOfMemory, .. } => {
                OUT_OF_MEMORY
            }
            Problem::Version { .. } => INVALID_VERSION,
            Problem::Range { error: RangeError::NumberTooLarge, .. } => NUMBER_TOO_LARGE,
            Problem::NotUtf8 { .. } | Problem::Range { .. } => INVALID_RANGE,
        }
    }

    /// Returns the error to report. The reason and the offset are found only if the caller asks for
    /// them.
    fn error(&self) -> Result<Error, AllocError> {
        let (found, index) = match *self {
            Problem::Version { bytes, dialect, index } => {
                let refusal = explain_version(bytes, dialect)?;
                (refusal.map(|it| (it.reason, it.offset)), index)
            }
            Problem::Dialects | Problem::PreReleases => (None, 1),
            Problem::NotUtf8 { offset, index } => (Some((Reason::NotUtf8, offset)), index),
            Problem::Range { range, dialect, index, .. } if self.status() != OUT_OF_MEMORY => {
                let refusal = explain_range(dialect, range)?;
                (refusal.map(|it| (it.reason, it.offset)), index)
            }
            _ => (None, 0),
        };
        let (reason, offset) = found.map_or((0, 0), |(reason, at)| (reason.number(), at));
        Ok(Error { status: self.status(), reason, offset, index, reserved: [0; 4] })
    }
}

/// Writes the result of a call, or the error, and returns the status. SAFETY: `out` may be written,
/// and so may `error` if it isn't null.
#[inline(always)]
pub unsafe fn finish<T>(made: Result<T, Problem<'_>>, out: *mut T, error: *mut Error) -> Status {
    match made {
        Ok(made) => {
            // SAFETY: the caller ensures it.
            unsafe { out.write(made) };
            OK
        }
        Err(problem) if error.is_null() => problem.status(),
        // SAFETY: the caller ensures it.
        Err(problem) => unsafe { report(problem, error) },
    }
}

/// Writes an error and returns its status. SAFETY: `error` may be written.
#[cold]
unsafe fn report(problem: Problem<'_>, error: *mut Error) -> Status {
    let memory = Error { status: OUT_OF_MEMORY, ..Error::default() };
    let found = problem.error().unwrap_or(memory);
    let status = found.status;
    // SAFETY: the caller ensures it.
    unsafe { error.write(found) };
    status
}
