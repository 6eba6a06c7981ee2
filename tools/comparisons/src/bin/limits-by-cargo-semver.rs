//! Prints for each requirement of standard input, one a line, why the crate `semver` rejects it, or
//! `a requirement`.

use semver::VersionReq;
use std::io::{self, BufRead};

fn main() {
    for requirement in io::stdin().lock().lines() {
        match VersionReq::parse(&requirement.expect("lines are UTF-8")) {
            Ok(_) => println!("a requirement"),
            Err(error) => println!("{error}"),
        }
    }
}
