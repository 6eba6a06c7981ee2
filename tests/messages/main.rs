//! What `{:#}` prints for the errors of some calls. Standard input has four strings for each call,
//! each with a zero byte after it: what is read (`version`, `range` or `upgrade`), the dialect, the
//! string, and for `upgrade` the version. A zero byte follows each message. tests/messages.py
//! compares them with those of the other languages.

use semver_parser::{upgrade, Dialect, Error, Version, VersionRange};
use std::io::{self, Read, Write};

fn error_of(what: &str, dialect: Dialect, string: &str, version: &str) -> Option<Error> {
    match what {
        "version" => Version::parse(string, dialect).err(),
        "range" => VersionRange::parse(string, dialect).err(),
        _ => upgrade(string, version, dialect).err(),
    }
}

fn main() -> Result<(), Box<dyn std::error::Error>> {
    let mut input = String::new();
    io::stdin().read_to_string(&mut input)?;
    let fields: Vec<&str> = input.split_terminator('\0').collect();
    for call in fields.chunks(4) {
        let error = error_of(call[0], call[1].parse()?, call[2], call[3]);
        let message = error.map_or_else(String::new, |error| format!("{error:#}"));
        write!(io::stdout(), "{message}\0")?;
    }
    Ok(())
}
