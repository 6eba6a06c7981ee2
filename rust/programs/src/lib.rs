//! The programs, each as a function that a file of `src/bin` calls. Their code is proved: it is the
//! modules of the same names in `rust/src/proved`.

extern crate alloc;

#[path = "../../src/proved/mod.rs"]
mod erased;
#[path = "../../src/rattle_std.rs"]
#[allow(dead_code, unused_imports, unused_macros)]
mod rattle_std;

// `erased` has the programs only if it is compiled for tests.
#[path = "../../src/proved"]
#[cfg(all(feature = "std", not(test)))]
#[allow(clippy::complexity, clippy::style, unused)]
mod proved {
    pub use crate::erased::*;

    pub mod compare_ranges_main;
    pub mod release_filter_main;
    pub mod semver_parser_main;
}
#[cfg(any(test, not(feature = "std")))]
use erased as proved;

#[cfg(feature = "std")]
use rattle_std::{process::ExitCode, HostRuntime};

/// The program `compare-ranges`.
#[cfg(feature = "std")]
pub fn compare_ranges() -> ExitCode {
    proved::compare_ranges_main::main(HostRuntime)
}

/// The program `release-filter`.
#[cfg(feature = "std")]
pub fn release_filter() -> ExitCode {
    proved::release_filter_main::main(HostRuntime)
}

/// The program `semver-parser`.
#[cfg(feature = "std")]
pub fn semver_parser() -> ExitCode {
    proved::semver_parser_main::main(HostRuntime)
}
