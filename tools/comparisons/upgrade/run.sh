# Sourced by tools/compare.sh: compares `upgrade` with node-semver and with Cargo's crate semver, in
# each language, or `to_requirement` in Rust.
work=$(mktemp -d)
trap 'rm -rf "$work"' EXIT
trap 'exit 2' HUP INT TERM
for crate in /usr/share/cargo/registry/semver-1.*; do
    [ -d "$crate" ] || { echo 'compare: needs librust-semver-dev' >&2 && exit 2; }
    echo "${crate##*/}"
done
(cd tools/comparisons && build)
folder=tools/comparisons/upgrade
programs=tools/comparisons/target/release

mkdir "$work/rust" "$work/texts"
cat > "$work/rust/Cargo.toml" << MANIFEST
[package]
name = "by-rust"
version = "0.0.0"
edition = "2021"

[[bin]]
name = "by-rust"
path = "$PWD/$folder/by-rust.rs"

[dependencies]
semver-parser = { package = "semver-parser-proved", path = "$PWD/rust" }

[workspace]
MANIFEST
cargo build --quiet --release --offline --manifest-path "$work/rust/Cargo.toml" \
    --target-dir "$work/target"

NODE_PATH=$(npm root -g)/npm/node_modules
export NODE_PATH
node -e 'console.log("node-semver", require("semver/package.json").version)'
tools/real-texts.py "$work/texts" /usr/share/cargo/registry /usr/src /usr/share/nodejs "$(npm root -g)"

if [ "$1" = requirement ]; then
    node $folder/requirements.js $programs/satisfied-by-cargo-semver "$work/texts" \
        "$work/target/release/by-rust"
else
    make -s
    cc -O1 -Wall -Wextra -Werror -Irust/capi/include -o "$work/by-c" $folder/by-c.c \
        out/lib/libsemver_parser.a
    tools/make-js.sh directory "$work/node_modules/semver-parser-proved"
    cp $folder/by-js.cjs "$work"
    SEMVER_PARSER_LIBRARY=$PWD/out/lib/libsemver_parser.so.$(cat VERSION)
    PYTHONPATH=$PWD/python PYTHONDONTWRITEBYTECODE=1
    export SEMVER_PARSER_LIBRARY PYTHONPATH PYTHONDONTWRITEBYTECODE
    node $folder/compare.js $programs "$work/texts" "${2:-100000}" "$seed" \
        Rust="$work/target/release/by-rust" C="$work/by-c" Python="python3 $folder/by-python.py" \
        JavaScript="node $work/by-js.cjs"
fi
