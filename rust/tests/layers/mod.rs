//! Tests of what is beyond the port: versions and ranges as Cargo and npm read them, sets of
//! versions, and the filters of lines.

mod contained;
mod lines;
pub mod refused;
pub mod rows;
mod sets;

/// Runs the tests that need more than a table of cases.
pub fn test() {
    contained::contain();
    sets::contain();
    sets::compare();
    lines::cuts();
    lines::strict_lines();
    lines::invalid_lines();
    lines::long_lines();
    lines::prefixes();
    lines::forms();
    lines::files();
}
