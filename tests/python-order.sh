#!/bin/sh
# Tests that what a call of the Python package returns doesn't depend on earlier calls or on other
# threads, by random calls in random order. Builds the library with make. ./test python tests the
# package itself.
set -eu
unset CDPATH
cd "$(dirname "$0")/.."
for tool in python3 cc; do
    command -v $tool > /dev/null || { echo "Python, order of calls: no $tool, so skipped" && exit; }
done
library=out/lib/libsemver_parser.so.$(cat VERSION)
make -s "$library"
SEMVER_PARSER_LIBRARY=$PWD/$library PYTHONDONTWRITEBYTECODE=1
export SEMVER_PARSER_LIBRARY PYTHONDONTWRITEBYTECODE
cd python
python3 -W error -m tests.order "${1:-1000}" "${2:-1}"
