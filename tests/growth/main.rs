//! Makes the calls that take a string, for tests/parallel/growth.py: the public ones of the Rust crate,
//! and some for programs and for C, from the proved sources.
//!
//! - `growth` prints the names of the calls, a line each.
//! - `growth CALL LENGTH` makes a call with a string of each shape, which has about so many bytes,
//!   and then with one that is ten times as long. It prints a line for each shape.

extern crate alloc;

#[path = "../../rust/src/proved/mod.rs"]
mod proved;
#[path = "../../rust/src/rattle_std.rs"]
#[allow(dead_code, unused_imports, unused_macros)]
mod rattle_std;
#[path = "../../rust/capi/src/shared.rs"]
#[allow(dead_code, unused_imports)]
mod shared;

use proved::release_filter::{LineOptions, Lines};
use proved::semver_versions::version::read;
use proved::tool_ranges::meaning;
use semver_parser::filters::{filter_text, release_meets};
use semver_parser::{comparators, satisfies, terms, upgrade, version};
use semver_parser::{lexer::Lexer, parser::Parser};
use semver_parser::{Compat, Dialect, RangeSet, Version, VersionRange, VersionRef};
use shared::{explain_version, read_ref_in, version_at, PreReleases, Rules};
use std::hint::black_box;

/// Returns the rules of a dialect in the proved sources, which this program has compiled itself.
fn rules_of(dialect: Dialect) -> Rules {
    let found = (0..).map_while(shared::Dialect::from_number).find(|it| it.name() == dialect.name());
    let pre_releases = PreReleases::from_number(0).unwrap();
    Rules { dialect: found.unwrap(), pre_releases }
}

/// A string is the first part, the second one repeated, and the third one.
const SHAPES: [(&str, &str, &str); 27] = [
    ("", "7", ""),
    ("1.2.3-", "7", ""),
    ("1.2.3-a", ".a", ""),
    ("1.2.3-", "-", ""),
    ("1.2.3-a", "-a", "!"),
    ("1.2.3+b", ".5", ""),
    ("1", ".1", ""),
    ("", ">=", "1"),
    ("", "~", "1"),
    ("", " ", "1.2.3"),
    ("1.2.3", " ", "x"),
    ("", "\u{a0}", "1"),
    ("", "1\u{3000}", ""),
    ("", "||", ""),
    ("1", ",1", ""),
    ("", "*", ""),
    ("x", ".x", ""),
    ("", "v", "1.2.3"),
    ("", "1 ", ""),
    ("", "^1 || ", "1"),
    ("", "1.x ", ""),
    ("", ">1 <2 ", ""),
    ("", "1 - 2 || ", "3"),
    (">1", ", <2", ""),
    ("", "^1.2.3-a+b || ", "!"),
    ("", "1.2 || ", "99999999999999999999"),
    ("", "1.2 || ", ">=1.9007199254740991 >1.18446744073709551615"),
];

type Call<T> = (&'static str, fn(&str, T));
type NamedCall = (String, Box<dyn Fn(&str)>);

/// The calls in a dialect.
const OF_DIALECT: [Call<Dialect>; 16] = [
    ("Version::parse", |text, dialect| show(Version::parse(text, dialect))),
    ("explain_version", |text, dialect| {
        let not_utf8: Vec<u8> = text.bytes().map(|byte| byte ^ 0x80).collect();
        black_box(explain_version(&not_utf8, rules_of(dialect).dialect)).ok();
    }),
    ("VersionRef::parse, cmp", |text, dialect| {
        let read = || VersionRef::parse(text, dialect);
        show(read().and_then(|one| Ok((one.cmp(&read()?), one.to_version()))));
    }),
    ("satisfies, a version", |text, dialect| show(satisfies(text, "^1.2", dialect))),
    ("satisfies, a range", |text, dialect| show(satisfies("1.2.3-a", text, dialect))),
    ("check_range", |text, dialect| show(meaning::check(rules_of(dialect), text))),
    ("comparators", |text, dialect| show(comparators(text, dialect).map(|it| it.to_string()))),
    ("VersionRange::parse", |text, dialect| {
        show(VersionRange::parse(text, dialect).map(|it| it.to_string()));
    }),
    ("VersionRange::highest", |text, dialect| {
        let all = VersionRange::parse("*", dialect).unwrap();
        black_box(all.contains(text)).ok();
        black_box(all.highest(["1.2.3", text]));
    }),
    ("Lines", |text, dialect| {
        let read = |range| shared::VersionRange::try_parse(range, rules_of(dialect));
        let range = read(">1, <2").or_else(|_| read(">1 <2")).unwrap();
        let mut lines = Lines::new(range, Vec::new(), LineOptions::new());
        let mut kept = Vec::new();
        let pushed = lines.push(text.replace(' ', "\n").as_bytes(), &mut kept);
        black_box((pushed.is_ok(), lines.finish(&mut kept).is_ok(), kept));
    }),
    ("VersionRange::min_version", |text, dialect| {
        show(VersionRange::parse(text, dialect).map(|it| it.min_version()));
    }),
    ("VersionRange::to_requirement", |text, dialect| {
        show(VersionRange::parse(text, dialect).map(|it| it.to_requirement()));
    }),
    ("upgrade, a range", |text, dialect| show(upgrade(text, "99.1.2", dialect))),
    ("upgrade, a version", |text, dialect| show(upgrade("~1.2", text, dialect))),
    ("terms", |text, dialect| show(terms(text, dialect).map(|it| it.map(black_box).count()))),
    ("version_at, with_version", |text, dialect| {
        let own = rules_of(dialect).dialect;
        let version = read_ref_in(b"3.1.4-rc.1", own.grammar()).unwrap();
        let last = terms(text, dialect).ok().and_then(Iterator::last);
        let start = last.map_or(0, |term| term.upper.unwrap_or(term.version).span.start);
        let found = version_at(text, start, own).ok().flatten();
        let replaced = found.map(|(before, written, after)| {
            format!("{before}{}{after}", written.with_version(&version))
        });
        black_box(replaced);
    }),
];

/// The calls in a mode of the crate `semver-parser`.
const OF_MODE: [Call<Compat>; 4] = [
    ("RangeSet::parse", |text, mode| show(RangeSet::parse(text, mode).map(|it| it.to_string()))),
    ("RangeSet::parse_exact", |text, mode| show(RangeSet::parse_exact(text, mode))),
    ("filter_text", |text, mode| {
        let versions = ["1.2.3", "1.2.3-a"].map(|it| version::parse(it).unwrap());
        black_box(filter_text(text, mode, &versions)).ok();
    }),
    ("release_meets", |text, mode| {
        let version = version::parse("1.2.3").unwrap();
        show(RangeSet::parse(text, mode).map(|set| release_meets(&set, &version)));
    }),
];

/// The calls that have neither.
const OTHERS: [Call<()>; 4] = [
    ("version::parse", |text, ()| {
        black_box(version::parse(text).map(|it| it.to_string()).map_err(|it| it.to_string())).ok();
    }),
    ("version::read", |text, ()| {
        black_box(read(text)).ok();
    }),
    ("Lexer", |text, ()| {
        black_box(Lexer::new(text).map(black_box).take_while(Result::is_ok).count());
    }),
    ("Parser::version", |text, ()| {
        black_box(Parser::new(text).and_then(|mut it| it.version())).ok();
    }),
];

/// Prints an error with its string and a caret, and what a call returned.
fn show<T, E: std::fmt::Display>(made: Result<T, E>) {
    match made {
        Ok(made) => drop(black_box(made)),
        Err(error) => drop(black_box((format!("{error}"), format!("{error:#}")))),
    }
}

/// Makes a call. callgrind counts only the instructions in this function.
#[no_mangle]
#[inline(never)]
fn measured(call: &dyn Fn(&str), text: &str) {
    call(black_box(text));
}

fn main() {
    let arguments: Vec<String> = std::env::args().skip(1).collect();
    let mut calls: Vec<NamedCall> = Vec::new();
    for dialect in [Dialect::Cargo, Dialect::Npm, Dialect::CrateCargo, Dialect::CrateNpm] {
        for (name, call) in OF_DIALECT {
            calls.push((format!("{name}, {dialect}"), Box::new(move |text| call(text, dialect))));
        }
    }
    for (name, call) in OF_MODE {
        calls.push((format!("{name}, Cargo"), Box::new(move |text| call(text, Compat::Cargo))));
        calls.push((format!("{name}, npm"), Box::new(move |text| call(text, Compat::Npm))));
    }
    for (name, call) in OTHERS {
        calls.push((name.to_string(), Box::new(move |text| call(text, ()))));
    }
    let [wanted, length] = arguments.as_slice() else {
        return calls.iter().for_each(|(name, _)| println!("{name}"));
    };
    let length: usize = length.parse().expect("a length");
    let (_, call) = calls.iter().find(|(name, _)| name == wanted).expect("a call");
    for (first, repeated, last) in SHAPES {
        println!("{first:?} {repeated:?} {last:?}");
        for length in [length, 10 * length] {
            let text = [first, &repeated.repeat(length / repeated.len()), last].concat();
            measured(&call, &text);
        }
    }
}
