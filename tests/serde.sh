#!/bin/sh
# Compiles and runs the example in rust/README.md that uses serde, and compares its output with the
# lines below it. Needs cargo, and Debian's packages librust-serde-derive-dev and
# librust-serde-json-dev.
set -eu
unset CDPATH
cd "$(dirname "$0")/.."
registry=/usr/share/cargo/registry
command -v cargo > /dev/null || { echo 'serde: no cargo, so it is not tested' && exit; }
for crate in serde serde_derive serde_json; do
    ls -d $registry/$crate-[0-9]* > /dev/null 2>&1 ||
        { echo "serde: $registry has no $crate, so it is not tested" && exit; }
done
work=$(mktemp -d)
trap 'rm -rf "$work"' EXIT
trap 'exit 2' HUP INT TERM
mkdir "$work/src" "$work/.cargo"

# block N: prints the lines of the Nth block in the section on serde.
block() {
    awk -v n="$1" '/^## / { here = /serde/ } here && /^```/ { fences++; next }
        here && fences == 2 * n - 1' rust/README.md
}
block 1 > "$work/src/main.rs"
block 2 > "$work/wanted"
[ -s "$work/src/main.rs" ] && [ -s "$work/wanted" ] ||
    { echo 'serde: rust/README.md has no example' && exit 1; }

cat > "$work/Cargo.toml" << EOF
[package]
name = "example"
version = "0.0.0"
edition = "2021"

[dependencies]
semver-parser = { package = "semver-parser-proved", path = "$PWD/rust" }
serde = { version = "1", features = ["derive"] }
serde_json = "1"

[workspace]
EOF
cat > "$work/.cargo/config.toml" << EOF
[source.crates-io]
replace-with = "debian"

[source.debian]
directory = "$registry"
EOF
(cd "$work" && cargo run --offline --quiet > "$work/found" 2> "$work/log") || {
    cat "$work/log"
    echo 'serde: the example of rust/README.md failed'
    exit 1
}
diff "$work/wanted" "$work/found" || {
    echo 'serde: the example of rust/README.md prints something else'
    exit 1
}
echo 'serde: passed'
