#!/bin/sh
# Builds and runs the examples with the library as it is installed into a temporary directory, and
# compares their output with the files next to them. It isn't part of the gate. Needs gcc, make,
# pkg-config and python3 (Debian: apt-get install gcc make pkg-config python3), and cargo, which
# builds what isn't built.
set -eu
top=$(dirname -- "$(dirname -- "$(dirname -- "$(readlink -f -- "$0")")")")
cd "$top"
. tools/built.sh
for tool in gcc make pkg-config python3; do
    command -v "$tool" > /dev/null || {
        echo "test examples needs $tool: apt-get install gcc make pkg-config python3" >&2
        exit 2
    }
done
begin

# quietly COMMAND..: runs a command, and shows its output only if it fails.
quietly() {
    "$@" > "$work/log" 2>&1 || {
        cat "$work/log"
        exit 1
    }
}

. tests/parallel/same.sh

quietly env MAKEFLAGS= make -s install PREFIX="$work/installed"
libraries=$work/installed/lib
export PKG_CONFIG_PATH="$libraries/pkgconfig" LD_LIBRARY_PATH="$libraries"
quietly make -C docs/examples/c clean
quietly make -C docs/examples/c CC=gcc
export SEMVER_PARSER_LIBRARY="$libraries/libsemver_parser.so" PYTHONPATH="$top/python" PYTHONDONTWRITEBYTECODE=1
cd docs/examples
in_c=c/out/check-ranges
in_python='python3 python/check_ranges.py'
same 'C, npm' 1 lines lines.npm /dev/null $in_c
same 'C, npm by its name' 1 lines lines.npm /dev/null $in_c npm
same 'C, Cargo' 2 lines lines.cargo lines.cargo.errors $in_c cargo
same 'C, the crate in npm mode' 1 lines lines.crate-npm /dev/null $in_c crate-npm
same 'C, the crate in Cargo mode' 1 lines lines.crate-cargo /dev/null $in_c crate-cargo
echo 'check-ranges [npm|cargo|crate-npm|crate-cargo] < lines' > "$work/usage"
same 'C, no dialect' 2 lines /dev/null "$work/usage" $in_c yarn
same 'C, two dialects' 2 lines /dev/null "$work/usage" $in_c npm cargo
same 'C, invalid lines' 2 faulty-lines faulty-lines.npm faulty-lines.errors $in_c
same 'C, invalid lines to the crate' 2 faulty-lines faulty-lines.crate-npm faulty-lines.crate-npm.errors $in_c crate-npm
same 'C, no line' 0 /dev/null /dev/null /dev/null $in_c
# A line that doesn't fit into memory, an output that can't be written, and an input that can't be
# read are errors.
long=$work/long
head -c 100000000 /dev/zero | tr '\0' 1 > "$long"
echo 'line 1: the input can'"'"'t be read: Cannot allocate memory' > "$work/no-memory"
same 'C, a long line' 2 "$long" /dev/null "$work/no-memory" sh -c 'ulimit -v 50000 && exec "$@"' - $in_c
echo 'line 1: the output can'"'"'t be written: No space left on device' > "$work/no-output"
printf '1\t2.0.0\n' > "$work/line"
same 'C, no output' 2 "$work/line" /dev/null "$work/no-output" sh -c 'exec "$@" > /dev/full' - $in_c
echo 'line 1: the input can'"'"'t be read: Is a directory' > "$work/no-input"
same 'C, no input' 2 . /dev/null "$work/no-input" $in_c
same 'Python, npm' 1 lines lines.npm /dev/null $in_python
same 'Python, npm by its name' 1 lines lines.npm /dev/null $in_python npm
same 'Python, Cargo' 2 lines lines.cargo lines.cargo.python-errors $in_python cargo
same 'Python, the crate in npm mode' 1 lines lines.crate-npm /dev/null $in_python crate-npm
same 'Python, the crate in Cargo mode' 1 lines lines.crate-cargo /dev/null $in_python crate-cargo
echo 'usage: check_ranges.py [npm|cargo|crate-npm|crate-cargo] < lines' > "$work/usage"
same 'Python, no dialect' 2 lines /dev/null "$work/usage" $in_python yarn
same 'Python, two dialects' 2 lines /dev/null "$work/usage" $in_python npm cargo
same 'Python, invalid lines' 2 faulty-lines faulty-lines.npm faulty-lines.python-errors $in_python
same 'Python, invalid lines to the crate' 2 faulty-lines faulty-lines.crate-npm faulty-lines.crate-npm.python-errors $in_python crate-npm
same 'Python, no line' 0 /dev/null /dev/null /dev/null $in_python
echo 'the output can'"'"'t be written: No space left on device' > "$work/no-output"
same 'C, no output of a raised requirement' 2 /dev/null /dev/null "$work/no-output" \
    sh -c 'exec "$@" > /dev/full' - c/out/raise-requirement ^1.2 2.5.1
"$top/tests/runs.py" raise-requirement c/out/raise-requirement
"$top/tests/runs.py" raise-requirement python3 "$PWD/python/raise_requirement.py"
echo 'examples: passed'
