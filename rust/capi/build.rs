//! Writes the texts of the crate's numbers as C needs them: the table of an enumeration has the
//! text of number N, with a zero at its end, at index N.

extern crate alloc;

#[path = "../src/proved/mod.rs"]
mod proved;
#[path = "../src/rattle_std.rs"]
#[allow(dead_code, unused_imports, unused_macros)]
mod rattle_std;

use proved::invalid_strings::reasons::Reason;
use proved::semver_ranges::operator::Operator;
use proved::semver_ranges::dialect::Dialect;
use proved::version_sets::PreReleases;
use std::{env, fs};

const OPERATORS: [Operator; 9] = [
    Operator::Less,
    Operator::LessOrEqual,
    Operator::Greater,
    Operator::GreaterOrEqual,
    Operator::Equal,
    Operator::Tilde,
    Operator::Caret,
    Operator::Bare,
    Operator::Hyphen,
];

fn table(
    name: &str,
    zero: Option<&'static str>,
    from_number: fn(i32) -> Option<&'static str>,
) -> String {
    let first = i32::from(zero.is_some());
    let texts = zero.into_iter().chain((first..).map_while(from_number));
    let items: Vec<String> = texts.map(|text| format!("{:?}", format!("{text}\0"))).collect();
    format!("pub static {name}: [&str; {}] = [{}];\n", items.len(), items.join(", "))
}

fn main() {
    let number = ["MAJOR", "MINOR", "PATCH"].into_iter().fold(0, |number, part| {
        let part = env::var(format!("CARGO_PKG_VERSION_{part}")).expect("cargo sets it");
        1000 * number + part.parse::<u32>().expect("it is a number")
    });
    let reason_name = |number| Reason::from_number(number).map(Reason::name);
    let reason_text = |number| Reason::from_number(number).map(Reason::sentence);
    let texts = [
        table("REASON_NAMES", Some("none"), reason_name),
        table("REASON_TEXTS", Some("no reason"), reason_text),
        table("DIALECT_NAMES", None, |number| Dialect::from_number(number).map(Dialect::name)),
        table("PRE_RELEASES_NAMES", None, |rule| {
            PreReleases::from_number(rule).map(PreReleases::name)
        }),
        table("OPERATOR_SIGNS", None, |number| {
            OPERATORS.into_iter().find(|it| it.number() == number).map(Operator::sign)
        }),
        format!("pub const VERSION_NUMBER: u32 = {number};\n"),
    ];
    let out = env::var("OUT_DIR").expect("cargo sets it");
    fs::write(out + "/texts.rs", texts.concat()).expect("it can be written");
    println!("cargo:rerun-if-changed=build.rs");
    println!("cargo:rerun-if-changed=../src");
}
