// Made by tools/erase.py from crates.txt; not edited by hand.
//! What is proved, as plain Rust: each crate of `crates/` without its contracts.
#![allow(clippy::complexity, clippy::style, missing_docs, private_bounds, unused)]
#![allow(clippy::large_const_arrays, clippy::large_enum_variant)]
#![allow(clippy::manual_unwrap_or_default)]

pub mod semver_texts;
pub mod semver_tokens;
pub mod semver_versions;
pub mod invalid_strings;
pub mod semver_ranges;
pub mod semver_parser;
pub mod version_sets;
pub mod tool_ranges;
pub mod invalid_ranges;
pub mod range_terms;
pub mod repaired_strings;
pub mod semver_errors;
pub mod requirements;
pub mod range_upgrades;
pub mod release_filter;
pub mod command_line;
#[cfg(test)]
pub mod semver_parser_main;
#[cfg(test)]
pub mod release_filter_main;
#[cfg(test)]
pub mod compare_ranges_main;
#[cfg(test)]
pub mod replayed_cases;
#[cfg(test)]
pub mod library_tests;
#[cfg(test)]
pub mod filter_tests;
#[cfg(test)]
pub mod small_inputs;
