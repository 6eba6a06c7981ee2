//! Measures this repository's calls.
//!
//! - `bench` compares their times with those of the Rust crates, on texts that it makes, and the
//!   times of whole runs of `release-filter` with those of `filter-by-semver`.
//! - `bench seed N` does the same with the texts of another seed.
//! - `bench texts` and `bench texts N` write such texts to files, to be looked at.
//! - `bench growth` counts the instructions of calls on texts of growing size.
//! - `bench npm` compares the times for ranges in npm's dialect with node-semver's.

extern crate alloc;

#[path = "../../../rust/src/proved/mod.rs"]
mod proved;
#[path = "../../../rust/src/rattle_std.rs"]
#[allow(dead_code, unused_imports, unused_macros)]
mod rattle_std;
#[path = "../../../rust/capi/src/shared.rs"]
#[allow(dead_code, unused_imports)]
mod shared;

mod agreement;
mod calls;
mod cells;
mod distinct;
mod errors;
mod forms;
mod generation;
mod growth;
mod npm;
mod ordering;
mod programs;
#[path = "../../comparisons/src/random.rs"]
mod random;
mod rows;
mod source;
mod speed;
mod texts;
mod timing;

use std::process::ExitCode;

/// The default seed of the texts.
const SEED: u64 = 1;

fn main() -> ExitCode {
    let arguments: Vec<String> = std::env::args().skip(1).collect();
    let arguments: Vec<&str> = arguments.iter().map(String::as_str).collect();
    let outcome = match arguments.as_slice() {
        [] => print_times(SEED),
        ["seed", seed] => number(seed).and_then(print_times),
        ["texts"] => texts::write_all(SEED),
        ["texts", seed] => number(seed).and_then(texts::write_all),
        ["growth"] => growth::print_tables(),
        ["npm"] => npm::print_table(SEED),
        ["run", name, count, calls] => growth::run(name, count, calls),
        _ => Err("usage: bench [seed N | texts [N] | growth | npm]".to_string()),
    };
    match outcome {
        Ok(()) => ExitCode::SUCCESS,
        Err(error) => {
            eprintln!("{error}");
            ExitCode::FAILURE
        }
    }
}

/// Prints both tables of times, separated by an empty line.
fn print_times(seed: u64) -> Result<(), String> {
    speed::print_table(seed)?;
    println!();
    programs::print_table(seed)
}

fn number(text: &str) -> Result<u64, String> {
    text.parse().map_err(|_| format!("no seed: {text:?}"))
}
