//! Compares raised requirements with those of cargo-edit, the tool with `cargo upgrade`.
//! `upgraded-by-cargo-edit` reads a requirement, a version and the raised requirement, each followed
//! by a zero byte, from standard input. The rule of cargo-edit is written here anew, from how its
//! `upgrade_requirement` is described, over Cargo's `semver`: each comparator without an operator or
//! with `=`, `~`, `^` or a wildcard gets as many numbers of the version as it has, and the
//! pre-release if that is three; `<`, `<=`, `>` and `>=` are errors; the result is printed by
//! `semver`, without `^` if the requirement had none.
//!
//! For each case it writes a line:
//!
//! - `error`: cargo-edit has no result
//! - `misses RESULT`: its result doesn't contain the version
//! - `same RESULT`: its result is the raised requirement, as `semver` reads it
//! - `other RESULT`: it isn't

use semver::{Comparator, Op, Version, VersionReq};
use std::io::{self, Read};

fn upgraded(mut comparator: Comparator, version: &Version) -> Option<Comparator> {
    if matches!(comparator.op, Op::Greater | Op::GreaterEq | Op::Less | Op::LessEq) {
        return None;
    }
    comparator.major = version.major;
    comparator.minor = comparator.minor.map(|_| version.minor);
    comparator.patch = comparator.patch.map(|_| version.patch);
    if comparator.op != Op::Wildcard {
        comparator.pre = version.pre.clone();
    }
    Some(comparator)
}

fn upgraded_requirement(requirement: &str, version: &Version) -> Option<String> {
    let VersionReq { comparators } = VersionReq::parse(requirement).unwrap();
    let comparators = comparators.into_iter().map(|it| upgraded(it, version));
    let printed = VersionReq { comparators: comparators.collect::<Option<_>>()? }.to_string();
    Some(match printed.strip_prefix('^') {
        Some(rest) if !requirement.starts_with('^') => rest.to_string(),
        _ => printed,
    })
}

fn answer(requirement: &str, version: &str, raised: &str) -> String {
    let version = Version::parse(version).unwrap();
    let Some(result) = upgraded_requirement(requirement, &version) else {
        return "error".to_string();
    };
    let read = VersionReq::parse(&result).unwrap();
    let word = match () {
        () if !read.matches(&version) => "misses",
        () if read == VersionReq::parse(raised).unwrap() => "same",
        () => "other",
    };
    format!("{word} {result}")
}

fn main() {
    let mut input = String::new();
    io::stdin().read_to_string(&mut input).unwrap();
    let fields: Vec<&str> = input.split_terminator('\0').collect();
    for case in fields.chunks_exact(3) {
        println!("{}", answer(case[0], case[1], case[2]));
    }
}
