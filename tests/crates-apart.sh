#!/bin/sh
# Compiles each erased crate as a package of its own, as the crates are in Rattle, and compares that
# with the one crate in rust/. In one crate a method that is `pub(crate)` is visible to all modules,
# so a call may mean another method than in Rattle. The same may happen without the feature std,
# since some files are left out then.
#
# - tests/crates_apart.py writes the packages, with only the dependencies of crates.txt.
# - rustc makes the same of each function in the packages and in the one crate: the same calls,
#   types and constants. This needs an option of rustc that isn't stable, so RUSTC_BOOTSTRAP is set.
# - Without std it makes the same of each function as with it.
# - The rows, the tests of the library, each failing allocation and the runs of the programs pass
#   with the packages.
# - Three edits are made in copies, and each has to be found. Each of them compiles in one crate,
#   and changes no row.
set -eu
unset CDPATH
cd "$(dirname "$0")/.."
top=$PWD
work=$(mktemp -d)
trap 'rm -rf "$work"' EXIT
trap 'exit 2' HUP INT TERM
CARGO_NET_OFFLINE=true CARGO_TERM_COLOR=never
export CARGO_NET_OFFLINE CARGO_TERM_COLOR

# quietly WHAT COMMAND..: runs a command, and shows its output only if it fails.
quietly() {
    what=$1
    shift
    "$@" > "$work/log" 2>&1 || {
        cat "$work/log"
        echo "the crates apart: $what: failed"
        exit 1
    }
}

# compiled DIRECTORY NAME OPTION..: compiles a package. The files .mir of it and of what it uses are
# in the directory NAME/debug/deps.
compiled() (
    cd "$1"
    CARGO_TARGET_DIR=$work/$2
    shift 2
    RUSTC_BOOTSTRAP=1 RUSTFLAGS='--emit=mir -Ztrim-diagnostic-paths=no'
    export CARGO_TARGET_DIR RUSTC_BOOTSTRAP RUSTFLAGS
    cargo check --quiet "$@"
)

# compared TOP NAME: compares the one crate in a copy of the repository with its crates apart.
compared() {
    tests/crates_apart.py "$1" "$work/$2" && compiled "$1/rust" "$2-one" --test proved &&
        compiled "$work/$2/rust" "$2-apart" --test proved &&
        tests/same_mir.py "$work/$2-one"/debug/deps/proved-*.mir \
            "$work/$2-apart"/debug/deps/*.mir
}

# compared_without_std TOP NAME: compares the one crate without std with the one that has it.
compared_without_std() {
    compiled "$1/rust" "$2-std" --lib && compiled "$1/rust" "$2-core" --lib --no-default-features &&
        tests/same_mir.py --part "$work/$2-core"/debug/deps/*.mir "$work/$2-std"/debug/deps/*.mir
}

# passes: runs the tests and the programs of the crates apart.
passes() (
    CARGO_TARGET_DIR="$work/target"
    export CARGO_TARGET_DIR
    cd "$work/as-they-are"
    quietly 'its tests' cargo test --quiet --package tests
    grep 'passed$' "$work/log"
    quietly 'the programs' cargo build --quiet --release --package programs
    cd "$top"
    for name in semver-parser release-filter compare-ranges; do
        tests/runs.py --cargo "$name" "$work/target/release/$name"
    done
)

# copied: makes a copy of what the comparison reads.
copied() {
    rm -rf "$work/copy" "$work"/planted*
    mkdir -p "$work/copy/rust"
    cp crates.txt "$work/copy"
    cp -R rust/Cargo.toml rust/programs rust/src rust/tests "$work/copy/rust"
    for crate in crates/*; do
        mkdir -p "$work/copy/$crate" && cp -R "$crate/src" "$work/copy/$crate"
    done
}

# plant CRATE FILE TEXT: appends a text to a source in the copy, and to the erased file.
plant() {
    echo "$3" >> "$work/copy/crates/$1/src/$2.rt"
    echo "$3" >> "$work/copy/rust/src/proved/$1/$2.rs"
}

# finds WHAT COMPARISON: the comparison has to fail in the copy, and to print this.
finds() {
    status=0
    "$2" "$work/copy" planted > "$work/log" 2>&1 || status=$?
    [ "$status" != 0 ] && grep -qF "$1" "$work/log" || {
        cat "$work/log"
        echo "the crates apart: the comparison should have found: $1"
        exit 1
    }
}

# A trait, a method of it for versions, and a function that calls a method of this name.
calls_planted='trait Planted { fn planted(&self) -> u64; }
impl Planted for Version { fn planted(&self) -> u64 { 2 } }
fn calls_planted(version: &Version) -> u64 { version.planted() }'

# Another crate has a method of the same name, which it doesn't show. A call means the method of the
# trait in Rattle, and the other one in one crate.
another_method() {
    copied
    plant semver_texts version 'impl Version { pub(crate) fn planted(&self) -> u64 { 1 } }'
    plant release_filter meeting "$calls_planted"
    finds 'only in the first build: fn calls_planted(' compared
}

# A file that needs std has a method of the same name. A call means that one in Rattle and with std,
# and the method of the trait without std.
another_method_without_std() {
    copied
    plant semver_texts version "$calls_planted"
    plant semver_texts writing \
        'impl crate::proved::semver_texts::version::Version { pub fn planted(&self) -> u64 { 1 } }'
    finds 'only in the first build: fn calls_planted(' compared_without_std
}

# A crate calls a function that another one doesn't show.
another_crate() {
    copied
    plant semver_texts bytes 'pub(crate) fn planted() -> u64 { 1 }'
    plant release_filter meeting \
        'fn calls_planted() -> u64 { crate::proved::semver_texts::bytes::planted() }'
    finds 'function `planted` is private' compared
}

compared . as-they-are
compared_without_std . as-they-are
passes
another_method
another_method_without_std
another_crate
echo 'the crates apart: passed, and 3 edits were found'
