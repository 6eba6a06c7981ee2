#!/bin/sh
# Tests the Rust crate in rust/ with cargo:
#
# - rust/src/proved is what tools/erase.py writes, byte for byte, and has the tokens of crates/.
# - Its types show no difference from Rattle, as tests/erased_types.py says.
# - docs/ERASURE.md has each call of std.
# - cargo's tests pass, with and without the feature std.
# - The programs write what the kit's build writes.
# - The documentation has no warning, and neither has clippy, if it is installed.
# - Each public item has an example.
# - What is packed passes its tests on its own.
set -eu
unset CDPATH
cd "$(dirname "$0")/.."
work=$(mktemp -d)
trap 'rm -rf "$work"' EXIT
trap 'exit 2' HUP INT TERM
CARGO_NET_OFFLINE=true CARGO_TERM_COLOR=never
export CARGO_NET_OFFLINE CARGO_TERM_COLOR

# quietly WHAT COMMAND..: runs a command, and shows its output only if it fails.
quietly() {
    what=$1
    shift
    "$@" > "$work/log" 2>&1 || {
        cat "$work/log"
        echo "the Rust crate: $what: failed"
        exit 1
    }
}

made_anew() {
    tools/erase.py "$work/proved"
    diff -r "$work/proved" rust/src/proved > "$work/log" || {
        head -n 20 "$work/log"
        echo 'rust/src/proved is not what tools/erase.py writes: run it, and commit what it wrote'
        exit 1
    }
}

programs_run() {
    quietly 'the programs' cargo build --quiet --release -p semver-parser-programs --bins
    quietly 'the example' cargo build --quiet --release --examples
    programs=${CARGO_TARGET_DIR:-target}/release
    for name in semver-parser release-filter compare-ranges; do
        tests/runs.py --cargo "$name" "$programs/$name"
    done
    tests/runs.py raise-requirement "$programs/examples/raise-requirement"
    tools/draw-boundaries.py "$programs/compare-ranges" | cmp - docs/boundaries.svg
}

cargo_tests() {
    quietly 'its tests' cargo test --quiet
    grep 'passed$' "$work/log"
    quietly 'without std' cargo test --quiet --no-default-features
    RUSTDOCFLAGS='-D warnings' quietly 'its documentation' cargo doc --quiet --no-deps
    tests/examples.py "${CARGO_TARGET_DIR:-target}/doc/semver_parser"
    tests/doc-links.py "${CARGO_TARGET_DIR:-target}/doc/semver_parser"
    ! cargo clippy --version > /dev/null 2>&1 || {
        names='-D clippy::same_name_method'
        quietly clippy cargo clippy --quiet --all-targets -- -D warnings $names
        # In what else is compiled, json.rs shifts by numbers whose type is a guess.
        for features in --all-features --no-default-features; do
            quietly clippy cargo clippy --quiet -p semver-parser-proved --lib $features -- \
                -D warnings $names -D clippy::default_numeric_fallback
        done
        says_what_must_be_used
    }
}

# Each function by hand has #[must_use] if clippy says that its result shouldn't be dropped.
says_what_must_be_used() {
    cargo clippy --quiet -- -W clippy::must_use_candidate > "$work/log" 2>&1
    ! grep -e '--> \(rust/\)\?src/[a-z_]*\.rs' "$work/log" | grep -v 'src/rattle_std\.rs' || {
        echo 'the Rust crate: these functions lack #[must_use]'
        exit 1
    }
}

# What is packed builds and passes its tests in a directory that has nothing else.
packed_by_itself() {
    OUT="$work" quietly 'make crate' make -s crate
    mkdir "$work/alone" && tar -C "$work/alone" -xzf "$work"/*.crate
    quietly 'what is packed' cargo test --quiet --manifest-path "$work"/alone/*/Cargo.toml \
        --target-dir "$work/target"
}

made_anew
tests/erased.py
tests/erased_types.py
tests/std-calls.py
cargo_tests
programs_run
packed_by_itself
echo 'the Rust crate: passed'
