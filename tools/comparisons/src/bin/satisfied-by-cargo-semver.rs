//! Prints whether a version satisfies a requirement, by Cargo's `semver`.
//! `satisfied-by-cargo-semver` reads pairs of a requirement and a version, each followed by a zero
//! byte, from standard input, and writes a character for each: `y`, `n`, or `!` if one of the two
//! is invalid.

use semver::{Version, VersionReq};
use std::io::{self, Read};

fn answer(requirement: &str, version: &str) -> char {
    match (VersionReq::parse(requirement), Version::parse(version)) {
        (Ok(requirement), Ok(version)) if requirement.matches(&version) => 'y',
        (Ok(_), Ok(_)) => 'n',
        _ => '!',
    }
}

fn main() {
    let mut input = String::new();
    io::stdin().read_to_string(&mut input).unwrap();
    let fields: Vec<&str> = input.split_terminator('\0').collect();
    let answers: String = fields.chunks_exact(2).map(|pair| answer(pair[0], pair[1])).collect();
    print!("{answers}");
}
