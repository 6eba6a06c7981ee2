//! What the C functions in tools/bench/c/times.c are compared with: the same ranges and versions
//! with the crate `semver`, in a table of the same form.

use semver::{Version, VersionReq};
use std::hint::black_box;
use std::time::Instant;

const PASSES: usize = 100;
const CALLS: u32 = 1000;
const RANGES: [&str; 3] = ["^1.2.3", ">=1.2.3, <2", "~1.2.3-rc.1"];
const VERSIONS: [&str; 6] = ["1.4.0", "1.2.2", "2.0.0", "1.9.12", "0.8.1", "1.2.3"];

/// Returns how many of the versions match a requirement that is parsed once.
fn ask_requirement(range: &str, versions: &[&str]) -> usize {
    let requirement = VersionReq::parse(range).expect("a requirement");
    let parse = |version: &&str| Version::parse(version).expect("a version");
    versions.iter().map(parse).filter(|version| requirement.matches(version)).count()
}

/// Returns how many of the versions match a requirement that is parsed for each.
fn ask_each(range: &str, versions: &[&str]) -> usize {
    versions.iter().map(|&version| ask_requirement(range, &[version])).sum()
}

/// Returns the nanoseconds of the best pass.
fn time_of(ask: Ask, range: &str, versions: &[&str]) -> u128 {
    let pass = |_| {
        let begun = Instant::now();
        for _ in 0..CALLS {
            black_box(ask(black_box(range), black_box(versions)));
        }
        begun.elapsed().as_nanos() / u128::from(CALLS)
    };
    (0..PASSES).map(pass).min().expect("a pass")
}

type Ask = fn(&str, &[&str]) -> usize;

fn main() {
    let ways: [(Ask, &str); 2] = [(ask_requirement, "parsed once"), (ask_each, "parsed for each")];
    for range in RANGES {
        for (ask, how) in ways {
            print!("| `{range}` by `semver`, {how} |");
            for count in 1..=VERSIONS.len() {
                print!(" {} |", time_of(ask, range, &VERSIONS[..count]));
            }
            println!();
        }
    }
}
