"""Runs the tests of Cargo's crate semver against rust/: semver-suite.py CRATE WORK.

CRATE is the directory of the crate, from Debian's librust-semver-dev. In the directory WORK this
makes a project whose `semver` is tools/comparisons/semver_shim.rs, which uses the Rust crate with
`Dialect::Cargo`. Its tests are the crate's own, unchanged, except that a failing assertion is
printed and the test goes on. The same is done with the crate itself, for which each assertion has
to hold. The assertions that fail with the shim have to be those in semver-suite.expected, which has
their lines by class.
"""

import collections
import os
import re
import subprocess
import sys

CRATE, WORK = sys.argv[1:]
HERE = os.path.dirname(os.path.realpath(__file__))
RUST = os.path.join(os.path.dirname(os.path.dirname(HERE)), "rust")
FILES = ["test_autotrait", "test_identifier", "test_version", "test_version_req"]

CARGO = """[package]
name = "user"
version = "0.0.0"
edition = "2021"

[dependencies]
semver = {{ path = "{path}" }}

[workspace]
"""
SHIM = """[package]
name = "semver"
version = "{version}"
edition = "2021"

[lib]
path = "{here}/semver_shim.rs"

[dependencies]
semver-parser = {{ package = "semver-parser-proved", path = "{rust}" }}
"""
# These replace the macros of std. They print where an assertion is, and whether it holds. For a
# function in `util`, that is where the function was called.
MACROS = """#![allow(warnings)]
macro_rules! assert {
    ($holds:expr $(, $($rest:tt)*)?) => { crate::note(std::panic::Location::caller(), $holds) };
}
macro_rules! assert_eq {
    ($one:expr, $other:expr $(, $($rest:tt)*)?) => { crate::note(std::panic::Location::caller(), $one == $other) };
}
macro_rules! assert_ne {
    ($one:expr, $other:expr $(, $($rest:tt)*)?) => { crate::note(std::panic::Location::caller(), $one != $other) };
}
fn note(at: &std::panic::Location<'_>, holds: bool) {
    let file = std::path::Path::new(at.file()).file_name().unwrap().to_str().unwrap();
    println!("\\nassertion {file} {} {holds}", at.line());
}
"""


def write(path, text):
    path = os.path.join(WORK, path)
    os.makedirs(os.path.dirname(path), exist_ok=True)
    with open(path, "w", encoding="utf-8") as file:
        file.write(text)


def run(name, path):
    """Runs the tests with a crate as semver. Returns the lines of the assertions, and how often
    each holds and fails."""
    tests = os.path.join(CRATE, "tests")
    modules = "".join(f'#[path = "{tests}/{module}.rs"]\nmod {module};\n' for module in FILES)
    write(f"{name}/Cargo.toml", CARGO.format(path=path))
    write(f"{name}/src/lib.rs", "")
    write(f"{name}/tests/suite.rs", MACROS + f'#[path = "{tests}/util/mod.rs"]\nmod util;\n' + modules)
    command = ["cargo", "test", "--offline", "--quiet", "--test", "suite", "--", "--nocapture", "--test-threads=1"]
    environment = {**os.environ, "CARGO_TARGET_DIR": os.path.join(WORK, "target")}
    ran = subprocess.run(command, cwd=os.path.join(WORK, name), env=environment, capture_output=True, text=True, check=False)
    if ran.returncode:
        sys.exit(f"semver-suite: a test of {name} ends with an error:\n{ran.stdout[-2000:]}{ran.stderr[-2000:]}")
    counts = collections.defaultdict(lambda: [0, 0])
    for file, line, holds in re.findall(r"^assertion (\S+) (\d+) (true|false)$", ran.stdout, flags=re.M):
        counts[f"{file} {line}"][holds == "false"] += 1
    return counts


def expected_failures():
    """Returns the lines of the assertions that are expected to fail, with their class, and the
    crate's version."""
    found, version, kind = {}, None, None
    with open(os.path.join(HERE, "semver-suite.expected"), encoding="utf-8") as file:
        for line in file.read().splitlines():
            if line.startswith("# semver "):
                version = line.split()[-1]
            elif line.startswith(" "):
                name, *numbers = line.split()
                found.update({f"{name} {number}": kind for number in numbers})
            elif not line.startswith("#"):
                kind = line
    return found, version


def main():
    expected, wanted = expected_failures()
    version = os.path.basename(os.path.realpath(CRATE)).split("-")[-1]
    if version != wanted:
        sys.exit(f"semver-suite: semver-suite.expected is for semver {wanted}, but this is {version}")
    write("shim/Cargo.toml", SHIM.format(version=version, here=HERE, rust=RUST))
    own = run("own", CRATE)
    shim = run("by_shim", os.path.join(WORK, "shim"))
    wrong = [f"semver itself fails {line}" for line, (_, fails) in own.items() if fails]
    failed = {line: fails for line, (_, fails) in shim.items() if fails}
    wrong += [f"fails: {line}" for line in failed if line not in expected]
    wrong += [f"no longer fails: {line} ({kind})" for line, kind in expected.items() if line not in failed]
    print(*wrong, sep="\n", end="\n" if wrong else "")
    total = sum(map(sum, shim.values()))
    print(f"semver {version}: {sum(map(sum, own.values()))} assertions, with Dialect::Cargo {total}; {sum(failed.values())} fail:")
    kinds = collections.Counter()
    for line, fails in failed.items():
        kinds[expected.get(line, "not expected")] += fails
    for kind, count in kinds.items():
        print(f"  {count}: {kind}")
    sys.exit(1 if wrong else 0)


if __name__ == "__main__":
    main()
