#!/bin/sh
# Builds the WebAssembly module by cargo, and makes it smaller by wasm-opt if that is there:
#
#   rust/wasm/build.sh FILE [DIRECTORY]   keeps what cargo builds in the directory, else in target/
#   rust/wasm/build.sh --check            only says which tool is missing
#
# rustc needs a standard library for wasm32-unknown-unknown. If it has none, core and alloc are
# built of the sources of rustup's component rust-src, or of Debian's rust-web-src by rustc-web.
set -eu
# What make sets for its own has rustc warn.
unset MAKEFLAGS MFLAGS
wasm=$(dirname -- "$(readlink -f -- "$0")")
top=${wasm%/rust/wasm} self=rust/wasm/build.sh target=wasm32-unknown-unknown
. "$top/tools/built.sh"

# has COMPILER: whether it has a standard library for the target, or the sources of one.
has() {
    command -v "$1" > /dev/null || return 1
    library=$("$1" --print sysroot)/lib/rustlib
    sources=$library/src/rust/library
    [ -d "$library/$target/lib" ] || [ -d "$sources/core" ]
}

may_cargo
for compiler in "${RUSTC:-rustc}" /usr/bin/rustc ''; do
    [ "$compiler" ] || refuse "needs a standard library for $target (rustup target add $target;" \
        'Debian 12: apt-get install rustc-web rust-web-src lld;' \
        'from Debian 13 on: apt-get install libstd-rust-dev-wasm32 lld)'
    ! has "$compiler" || break
done
export RUSTC="$compiler"
flags='' features=''
host=$("$RUSTC" -vV | sed -n 's/^host: //p')
if [ ! -x "$library/$host/bin/rust-lld" ] && [ ! -x "$library/$host/bin/gcc-ld/wasm-ld" ]; then
    command -v wasm-ld > /dev/null ||
        refuse 'needs the command wasm-ld (Debian: apt-get install lld)'
    flags='-Clinker=wasm-ld -Clinker-flavor=wasm-ld'
fi
[ "$1" != --check ] || exit 0
file=$1 built=${2:-$wasm/target}
# Of several at once one builds, and the others wait.
mkdir -p "$built"
exec 9> "$built/lock"
flock 9

# Functions that are always inlined make the module three times as large: they are inlined at will
# in a copy of the sources, which is made anew only if they change.
copy=$built/crate new=$built/new
rm -rf "$new" && mkdir -p "$new/wasm" "$new/capi/src"
cp -R "$wasm/../src" "$new"
cp "$wasm/../capi/src/shared.rs" "$new/capi/src"
cp -R "$wasm/Cargo.toml" "$wasm/src" "$new/wasm"
find "$new" -name '*.rs' -exec sed -i 's/#\[inline(always)\]/#[inline]/' {} +
diff -r -q -x Cargo.lock "$new" "$copy" > /dev/null 2>&1 || { rm -rf "$copy" && mv "$new" "$copy"; }

set -- --release --target "$target" --target-dir "$built" --manifest-path "$copy/wasm/Cargo.toml"
if [ ! -d "$library/$target/lib" ]; then
    export RUSTC_BOOTSTRAP=1
    set -- "$@" -Zbuild-std=core,alloc -Zbuild-std-features=optimize_for_size \
        --config 'source.crates-io.replace-with="vendored"' \
        --config "source.vendored.directory=\"$sources/vendor\""
fi
flags="$flags --remap-path-prefix=$copy= --remap-path-prefix=$library="
RUSTFLAGS=$flags cargo build --quiet --offline "$@"
module=$built/$target/release/semver_parser_wasm.wasm
if command -v wasm-opt > /dev/null; then
    [ "$built/optimized.wasm" -nt "$module" ] ||
        wasm-opt -O3 --enable-bulk-memory --enable-mutable-globals --enable-sign-ext \
            --enable-nontrapping-float-to-int --enable-multivalue --strip-producers \
            --strip-target-features "$module" -o "$built/optimized.wasm" ||
        refuse "wasm-opt cannot read $module"
    module=$built/optimized.wasm
else
    echo 'rust/wasm/build.sh: no wasm-opt (Debian: apt-get install binaryen): a larger module' >&2
fi
cp "$module" "$file"
