#!/bin/sh
# Tests what cargo does with a clone of this repository:
#
# - Each command that builds or checks the whole workspace passes without a warning. rust-analyzer
#   runs one of these commands.
# - `cargo package` makes a package with the licences. It has the same files as `make crate`, except
#   for the data of its tests, and passes them without that data. tests/rust-crate.sh tests the
#   package of `make crate`.
# - For a crate that depends on the clone by `git = URL`, cargo prints no error and no warning.
#
# Needs cargo and git, and runs clippy if it is installed.
set -eu
unset CDPATH
cd "$(dirname "$0")/.."
for tool in cargo git; do
    command -v $tool > /dev/null || { echo "cargo in a clone: no $tool, so it is not tested" && exit; }
done
git rev-parse --git-dir > /dev/null 2>&1 ||
    { echo 'cargo in a clone: this is not a repository of git, so it is not tested' && exit; }
top=$PWD
work=$(mktemp -d)
trap 'rm -rf "$work"' EXIT
trap 'exit 2' HUP INT TERM
CARGO_TERM_COLOR=never
export CARGO_TERM_COLOR
unset CARGO_NET_OFFLINE $(git rev-parse --local-env-vars)

# fails WHY: shows the last output, prints why, and exits with 1.
fails() {
    cat "$work/log"
    echo "cargo in a clone: $1"
    exit 1
}

# silently COMMAND..: the command has to pass without writing to standard error.
silently() {
    "$@" > "$work/output" 2> "$work/log" || fails "$*: failed"
    [ ! -s "$work/log" ] || fails "$*: it warns"
}

silently cargo metadata --offline --format-version 1
silently cargo build --offline --quiet --workspace
silently cargo build --offline --quiet --workspace --no-default-features
silently cargo check --offline --quiet --workspace --all-targets
if cargo clippy --version > /dev/null 2>&1; then
    silently cargo clippy --offline --quiet --workspace --all-targets
else
    echo 'cargo in a clone: no clippy, so it is not run'
fi

# A clone of the files that git lists, as they are now.
clone="$work/clone"
mkdir "$clone"
git ls-files -z --cached --others --exclude-standard > "$work/files"
tar --null -T "$work/files" --ignore-failed-read -cf - 2> /dev/null | tar -C "$clone" -xf -
cd "$clone"
git init -q
git add -A
git -c user.name=a -c user.email=a@b commit -qm 'What is tested'

# Both packages have the same files, except for what cargo notes about git.
silently cargo package --offline --quiet --target-dir "$work/target"
OUT="$work/made" make -s -C "$top" crate > "$work/log" 2>&1 || fails 'make crate failed'
mkdir "$work/by-cargo" "$work/by-make"
tar -C "$work/by-cargo" -xzf "$work"/target/package/*.crate
tar -C "$work/by-make" -xzf "$work"/made/*.crate
diff -r -x .cargo_vcs_info.json -x data "$work/by-cargo" "$work/by-make" > "$work/log" ||
    fails 'cargo package and make crate pack other files'
(cd "$work"/by-cargo/* && cargo test --offline --quiet --test proved --target-dir "$work/target") \
    > "$work/log" 2>&1 || fails 'the package fails its tests'
grep -q '^rows: .* not here$' "$work/log" || fails 'the package compares other rows'
for name in LICENSE-APACHE LICENSE-MIT; do
    cmp "$name" "$work"/by-cargo/*/"$name" > "$work/log" 2>&1 || fails "the package has another $name"
done

# A crate that depends on the clone. cargo reads each Cargo.toml in the clone.
mkdir -p "$work/user/src"
cd "$work/user"
cat > Cargo.toml << END
[package]
name = "user"
version = "0.1.0"
edition = "2021"

[dependencies]
semver-parser = { package = "semver-parser-proved", git = "file://$clone" }
END
echo 'fn main() { println!("{}", semver_parser::version::parse("1.2.3").unwrap()) }' > src/main.rs
CARGO_HOME=$work/home CARGO_TARGET_DIR=$work/target cargo build > "$work/log" 2>&1 ||
    fails 'a crate that depends on the clone: failed'
grep -v '^ *\(Updating git repository\|Locking\|Compiling\|Finished\) ' "$work/log" > "$work/more" &&
    fails 'a crate that depends on the clone: cargo writes more than what it does'
[ "$("$work/target/debug/user")" = 1.2.3 ] || fails 'a crate that depends on the clone: another result'
echo 'cargo in a clone: passed'
