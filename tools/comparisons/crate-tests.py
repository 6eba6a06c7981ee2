"""Runs the tests and examples of the original crate against rust/: crate-tests.py SOURCES WORK.

SOURCES is the directory `src` of the crate semver-parser, from Debian's librust-semver-parser-dev.
In the directory WORK this makes a project that depends on semver-parser by its name, but gets rust/
instead. Its tests are the crate's own, unchanged, each in a module in which its `use super::*`
finds what it found in the crate. The tests of ranges call pest; a stand-in for it parses the text
with RangeSet::parse. The crate's program is compiled and run, too.
"""

import os
import re
import subprocess
import sys

SOURCES, WORK = sys.argv[1:]
TOP = os.path.dirname(os.path.dirname(os.path.dirname(os.path.realpath(__file__))))

# What `super` contains for the tests of a module.
FOUND = {
    "lexer": "pub use semver_parser::lexer::{self, *};\npub use self::Error::*;\npub use self::Token::*;",
    "range_set": "pub use semver_parser::*;",
    "version": "pub use semver_parser::version::*;\npub use semver_parser::parser;",
    "range": """pub use semver_parser::*;
pub mod range_set { pub use semver_parser::{Compat, RangeSet}; }
pub enum Rule { range }
pub struct SemverParser;
mod pest {
    pub mod iterators {
        pub struct Pair<'i, R>(pub &'i str, pub std::marker::PhantomData<R>);
    }
    pub trait Parser {
        fn parse(_: super::Rule, input: &str)
            -> Result<std::vec::IntoIter<iterators::Pair<'_, super::Rule>>, String> {
            Ok(vec![iterators::Pair(input, std::marker::PhantomData)].into_iter())
        }
    }
    impl Parser for super::SemverParser {}
}
pub fn from_pair_iterator(pair: pest::iterators::Pair<'_, Rule>, compat: Compat) -> Result<Range, String> {
    let mut set = RangeSet::parse(pair.0, compat)?;
    assert_eq!(set.ranges.len(), 1);
    Ok(set.ranges.remove(0))
}""",
}

CARGO = f"""[package]
name = "user"
version = "0.0.0"
edition = "2018"

[dependencies]
semver-parser = {{ package = "semver-parser-proved", path = "{TOP}/rust" }}

[workspace]
"""


def source(name):
    with open(os.path.join(SOURCES, name), encoding="utf-8") as file:
        return file.read()


def tests_of(module):
    """Returns the tests of a module of the crate, in a module of their own."""
    text = source(f"{module}.rs")
    if "#[cfg(test)]\nmod tests {" not in text:
        return ""
    body = text[text.index("#[cfg(test)]\nmod tests {"):].replace("use crate::version;", "use semver_parser::version;")
    if module == "range":
        body = body.replace("use pest::Parser;", "use super::pest::{self, Parser};")
    return f"\nmod {module} {{\n{FOUND[module]}\n{body}\n}}\n"


def examples():
    """Yields the examples in the documentation, each as a test."""
    for file in sorted(os.listdir(SOURCES)):
        found = re.findall(r"//[/!] ```(?:rust)?\n(.*?)//[/!] ```", source(file), flags=re.S) if file.endswith(".rs") else []
        for place, example in enumerate(found):
            lines = [re.sub(r"^# ?", "", re.sub(r"^\s*//[/!] ?", "", line)) for line in example.splitlines()]
            body = "\n".join("    " + line for line in lines if line != "use semver_parser;")
            yield f"\n#[test]\nfn example_{place}_of_{file[:-3]}() {{\n{body}\n}}\n"


def write(path, text):
    path = os.path.join(WORK, path)
    os.makedirs(os.path.dirname(path), exist_ok=True)
    with open(path, "w", encoding="utf-8") as file:
        file.write(text)


def main():
    modules = [name[:-3] for name in sorted(os.listdir(SOURCES)) if name[:-3] in FOUND]
    write("Cargo.toml", CARGO)
    write("src/main.rs", source("main.rs"))
    write("tests/original.rs", "#![allow(warnings)]\n" + "".join(map(tests_of, modules)) + "".join(examples()))
    ran = subprocess.run(["cargo", "test", "--offline", "--quiet", "--test", "original"], cwd=WORK, check=False)
    if ran.returncode:
        sys.exit(ran.returncode)
    program = subprocess.run(["cargo", "run", "--offline", "--quiet"], cwd=WORK, capture_output=True, check=False)
    sys.stdout.write(program.stdout.decode())
    sys.exit(program.returncode)


if __name__ == "__main__":
    main()
