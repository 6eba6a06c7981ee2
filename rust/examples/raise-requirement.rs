//! Raises a requirement to a newer version, and keeps how it is written:
//!
//! ```text
//! $ cargo run --example raise-requirement -- '~1.2 || ^2.0' 3.1.4
//! ~1.2 || ^2.0 || ^3.1
//! ```
//!
//! A range that has this version or a higher one is printed as it is. A third argument is the
//! dialect: `npm`, the default, `cargo`, `crate-npm` or `crate-cargo`.
//!
//! The status is 0 if the range that is printed has the version or a higher one. It is 1 if the
//! requirement can't be raised, such as `1.x` to 2.0.0-rc.1, and 2 if an argument is invalid.

use semver_parser::{upgrade, Dialect, Error, ErrorKind};
use std::process::ExitCode;

/// Returns the range raised to the version, or as it is if nothing has to be raised.
///
/// # Errors
///
/// The errors of [`upgrade`], and one for an unknown dialect.
pub fn raised(range: &str, version: &str, dialect: &str) -> Result<String, Error> {
    let new = upgrade(range, version, dialect.parse::<Dialect>()?)?;
    Ok(new.unwrap_or_else(|| range.to_string()))
}

fn main() -> ExitCode {
    let arguments: Vec<String> = std::env::args().skip(1).collect();
    let arguments: Vec<&str> = arguments.iter().map(String::as_str).collect();
    let (range, version, dialect) = match arguments[..] {
        [range, version] => (range, version, "npm"),
        [range, version, dialect] => (range, version, dialect),
        _ => {
            eprintln!("usage: raise-requirement RANGE VERSION [npm|cargo|crate-npm|crate-cargo]");
            return ExitCode::from(2);
        }
    };
    match raised(range, version, dialect) {
        Ok(raised) => println!("{raised}"),
        Err(error) => {
            eprintln!("{error}");
            return ExitCode::from(if error.kind() == ErrorKind::CannotUpgrade { 1 } else { 2 });
        }
    }
    ExitCode::SUCCESS
}
