#!/bin/sh
# Measures speed and memory, and prints tables. It isn't part of the gate.
#
# - tools/measure-speed.sh compares the times of the calls of rust/ with those of the Rust crates
#   semver-parser and semver, all built by `cargo build --release`, on 100,000 different texts of
#   each kind that it makes (tools/bench/texts/README.md describes them). A second table compares
#   whole runs of release-filter with the same filter with the crate semver, on a million different
#   lines; it has the kit's build, too, if there is one. This takes six minutes.
# - tools/measure-speed.sh seed N does the same with another seed than 1.
# - tools/measure-speed.sh texts [N] writes the texts (of seed N) to tools/bench/target/texts, to be
#   looked at. Nothing reads them there.
# - tools/measure-speed.sh growth counts the instructions of calls on texts of growing size, by
#   callgrind.
# - tools/measure-speed.sh npm compares the times of ranges in npm's dialect, each matched with one
#   version, with those of npm's node-semver.
# - tools/measure-speed.sh js does this for the JavaScript package. It needs what rust/wasm/build.sh
#   needs.
# - tools/measure-speed.sh c compares the times of C functions with the crate semver, and measures
#   how much memory they take. It needs cc.
# - tools/measure-speed.sh locks [CHECKOUT].. times check-lock-file, here and in other checkouts,
#   with the library of this one: on large lock files that it makes, on the same files with
#   something wrong, in each format, and on files that are made to take long. It needs only python3
#   with PyYAML.
#
# tools/draw-ratios.py draws docs/ratios.svg from the tables in docs/SPEED.md.
#
# All except locks need cargo and Debian's packages librust-semver-parser-dev and
# librust-semver-dev; growth also needs valgrind.
set -eu
cd "$(dirname "$0")/.."

# Builds what is measured, and what it is compared with, with Debian's crates.
build_bench() {
    (cd tools/bench && cargo build --quiet --release --offline "$@" \
        --config 'source.crates-io.replace-with="debian"' \
        --config 'source.debian.directory="/usr/share/cargo/registry"')
}

# Compares the times of C functions with the crate semver, and measures how much memory they take.
measure_c() {
    library=out/lib/libsemver_parser.a
    make -s $library
    build_bench --bin times-by-semver
    work=$(mktemp -d)
    trap 'rm -rf "$work"' EXIT
    trap 'exit 2' HUP INT TERM
    cc -O2 -o "$work/times" tools/bench/c/times.c $library
    cc -O2 -o "$work/memory" tools/bench/c/memory.c $library -Wl,--wrap=malloc,--wrap=realloc,--wrap=free
    "$work/times"
    tools/bench/target/release/times-by-semver
    echo
    "$work/memory"
}
if [ "${1-}" = c ]; then
    measure_c
    exit
fi

processor=$(sed -n 's/^model name[[:space:]]*: //p' /proc/cpuinfo | head -n 1)

# Prints the measurements that need node-semver, which npm has.
of_node_semver() {
    NODE_PATH=$(npm root -g)/npm/node_modules
    export NODE_PATH
    printf '%s, %s, node-semver %s, node %s:\n\n' "$(date +%Y-%m-%d)" "${processor:-$(uname -m)}" \
        "$(node -p 'require("semver/package.json").version')" "$(node --version)"
}

if [ "${1-}" = js ]; then
    work=$(mktemp -d)
    trap 'rm -rf "$work"' EXIT
    trap 'exit 2' HUP INT TERM
    tools/make-js.sh directory "$work"
    of_node_semver
    node tools/bench/package.js "$work/index.cjs"
    exit
fi

# Times check-lock-file in checkouts, this one last.
if [ "${1-}" = locks ]; then
    shift
    library=out/lib/libsemver_parser.so.$(cat VERSION)
    make -s "$library"
    export SEMVER_PARSER_LIBRARY="$PWD/$library"
    exec python3 -B tools/bench/locks/measure.py "$@" .
fi

version() { dpkg-query --show --showformat '`${Package}` ${Version}' "$1"; }

cd tools/bench
cargo build --quiet --release --offline --manifest-path ../../rust/programs/Cargo.toml --target-dir target/crate
(cd ../.. && build_bench)
case ${1-} in
'' | seed)
    printf '%s, %s, %s, ' "$(date +%Y-%m-%d)" "${processor:-$(uname -m)}" \
        "$(rustc --version | cut -d ' ' -f 1-2)"
    printf '%s, %s, seed %s:\n\n' "$(version librust-semver-parser-dev)" \
        "$(version librust-semver-dev)" "${2-1}"
    ;;
growth) printf '%s, %s:\n\n' "$(date +%Y-%m-%d)" "$(version valgrind)" ;;
npm) of_node_semver ;;
esac
exec ./target/release/bench "$@"
