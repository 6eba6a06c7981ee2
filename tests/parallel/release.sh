#!/bin/sh
# Makes a release of the last commit twice, each in its own clone in another directory. The files
# have to be the same byte for byte, and SHA256SUMS has to list them. It isn't part of the gate.
# Needs what `make release` needs.
set -eu
unset CDPATH
cd "$(dirname "$0")/../.."
work=$(mktemp -d)
trap 'rm -rf "$work"' EXIT
trap 'exit 2' HUP INT TERM
unset SOURCE_DATE_EPOCH
for directory in one another/directory; do
    git clone --quiet . "$work/$directory/source"
    make -s -C "$work/$directory/source" release OUT="$work/$directory/release" > "$work/log" 2>&1 || {
        cat "$work/log"
        echo 'release: failed'
        exit 1
    }
    (cd "$work/$directory/release" && sha256sum --quiet --strict -c SHA256SUMS)
done
diff "$work/one/release/SHA256SUMS" "$work/another/directory/release/SHA256SUMS"
[ "$(wc -l < "$work/one/release/SHA256SUMS")" = 10 ]
echo 'release: passed'
