#!/bin/sh
# Opens the page of js/web in Chromium, types into it, and reads what it shows. It also loads the
# package's file for browsers there, and compares the page with its picture, docs/page.png, which has
# the text of the page that it shows.
#
#   tests/page.sh
#   tests/page.sh draw    takes the picture anew
set -eu
case ${1-} in
'' | draw) ;;
*) echo 'usage: tests/page.sh [draw]' >&2 && exit 2 ;;
esac
top=$(dirname -- "$(dirname -- "$(readlink -f -- "$0")")")
command -v chromium > /dev/null || {
    echo 'page: no chromium (Debian: apt-get install chromium), so it is not opened'
    exit
}
work=$(mktemp -d)
# Chromium may still write there when it is stopped.
trap 'rm -rf "$work" 2> /dev/null || { sleep 1 && rm -rf "$work"; }' EXIT
trap 'exit 2' HUP INT TERM
"$top/tools/make-js.sh" page "$work" > /dev/null
"$top/tools/make-js.sh" directory "$work/package"
mkdir "$work/profile"
node "$top/tests/page.js" "$work/semver-ranges.html" "$work/package" "$work/profile" \
    "$top/docs/page.png" ${1:+"$1"}
