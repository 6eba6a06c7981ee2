//! Raises requirements, or writes ranges as requirements, by the Rust crate. Standard input has
//! cases of three fields, each followed by a zero byte. Without an argument these are a range, a
//! version and a dialect. For each case this writes the raised range, `!none`, `!version`, `!range`
//! or `!cannot`, and a zero byte. With the argument `requirement` the fields are a range, a rule for
//! pre-releases and a dialect, and it writes the requirement, `!none` or `!range`.

use semver_parser::{upgrade, Dialect, Error, ErrorKind, VersionRange};
use std::io::{self, Read, Write};

fn raised(range: &str, version: &str, dialect: Dialect) -> Result<Option<String>, Error> {
    upgrade(range, version, dialect)
}

fn requirement(range: &str, rule: &str, dialect: Dialect) -> Result<Option<String>, Error> {
    Ok(VersionRange::parse(range, dialect.with(rule.parse()?))?.to_requirement())
}

fn main() {
    let call = if std::env::args().nth(1).is_some() { requirement } else { raised };
    let mut input = String::new();
    io::stdin().read_to_string(&mut input).unwrap();
    let fields: Vec<&str> = input.split_terminator('\0').collect();
    let mut output = io::stdout().lock();
    for case in fields.chunks_exact(3) {
        let result = match call(case[0], case[1], case[2].parse().unwrap()) {
            Ok(Some(range)) => range,
            Ok(None) => "!none".to_string(),
            Err(error) => match error.kind() {
                ErrorKind::InvalidVersion => "!version".to_string(),
                ErrorKind::InvalidRange => "!range".to_string(),
                ErrorKind::CannotUpgrade => "!cannot".to_string(),
                kind => panic!("{kind:?}"),
            },
        };
        write!(output, "{result}\0").unwrap();
    }
}
