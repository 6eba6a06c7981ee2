#!/bin/sh
# Makes the JavaScript package, or the page of js/web in one file, from the module that cargo
# builds:
#
#   tools/make-js.sh module FILE            the module
#   tools/make-js.sh directory DIRECTORY    the package, in a directory
#   tools/make-js.sh package DIRECTORY      the package, packed by npm into a directory
#   tools/make-js.sh page DIRECTORY         the page, in a directory
#
# What cargo builds stays in out/wasm. If a tool is missing, it says so before it builds anything.
set -eu
top=$(dirname -- "$(dirname -- "$(readlink -f -- "$0")")")

refuse() {
    echo "tools/make-js.sh: $*" >&2
    exit 2
}

what=${1-} to=${2-}
case $what in
module | directory | package | page) ;;
*) refuse 'usage: tools/make-js.sh module|directory|package|page TO' ;;
esac
[ "$to" ] || refuse "make $what where?"
command -v node > /dev/null || refuse 'needs the command node (Debian: apt-get install nodejs)'
[ "$what" != package ] || command -v npm > /dev/null ||
    refuse 'needs the command npm (Debian: apt-get install npm)'
"$top/rust/wasm/build.sh" --check

work=$(mktemp -d)
trap 'rm -rf "$work"' EXIT
trap 'exit 2' HUP INT TERM
[ "$what" = module ] || mkdir -p "$to"
to=$(readlink -f -- "$to")
"$top/rust/wasm/build.sh" "$work/module.wasm" "$top/out/wasm"
case $what in
module) mv -f "$work/module.wasm" "$to" ;;
directory) node "$top/js/build.cjs" "$work/module.wasm" "$to" ;;
package)
    node "$top/js/build.cjs" "$work/module.wasm" "$work/package"
    cd "$work"
    name=$(npm pack --silent ./package)
    mv -f "$name" "$to"
    echo "made $2/$name"
    ;;
page)
    node "$top/js/build.cjs" "$work/module.wasm" "$work/package"
    "$top/js/web/build.sh" "$work/package" "$work/semver-ranges.html"
    mv -f "$work/semver-ranges.html" "$to"
    echo "made $2/semver-ranges.html"
    ;;
esac
