# Shared by the tests of scripts. Sourcing this file makes a copy of the checkout that nobody edits,
# `checkout`, in a directory with a blank in its name, and changes to it. cargo builds everything
# there anew. `stub` replaces commands with scripts.
work=$(mktemp -d)
trap 'rm -rf "$work"' EXIT
trap 'exit 2' HUP INT TERM
umask 022
chmod 755 "$work"
unset DESTDIR SOURCE_DATE_EPOCH CC
checkout="$work/a checkout"

copy_checkout() {
    mkdir -p "$checkout" "$work/bin"
    cp -R Cargo.toml crates.txt VERSION LICENSE-APACHE LICENSE-MIT Makefile debian docs pyproject.toml semver-parser \
        python rust tests tools "$checkout"
}

# stub COMMAND BODY: from now on, the command is a script with this body.
stub() {
    printf '#!/bin/sh\n%s\n' "$2" > "$work/bin/$1"
    chmod +x "$work/bin/$1"
}

# fail WHAT: prints what is wrong and the last output, and exits with 1.
fail() {
    echo "$1"
    cat "$work/stdout" "$work/stderr" 2> /dev/null
    exit 1
}

# ends STATUS COMMAND..: the command has to exit with this status. Its output is kept, except for
# the lines that make prints about a failed recipe.
ends() {
    wanted=$1 status=0
    shift
    "$@" > "$work/stdout" 2> "$work/stderr" || status=$?
    sed -i '/^make[][0-9]*: \*\*\* /d' "$work/stderr"
    [ "$status" = "$wanted" ] || fail "$*: status $status instead of $wanted"
}

# has TEXT FILE: the output in the file has to be exactly the text.
has() {
    printf '%s\n' "$1" | diff -u - "$work/$2"
}

# refuses WHY COMMAND..: the command has to exit with 2, print this one line to standard error, and
# print nothing else.
refuses() {
    why=$1
    shift
    ends 2 "$@"
    has "$why" stderr
    [ ! -s "$work/stdout" ] || fail "$*: it writes something before the error"
}

# holds DIRECTORY: prints the files in the directory and below.
holds() {
    (cd "$1" && find . ! -type d | sed 's:^\./::' | LC_ALL=C sort)
}

# try_library FLAGS..: compiles a program with these flags, which link the library, and runs it.
try_library() {
    cc -Wall -Wextra -Werror -o "$work/caller" tests/c/installed.c "$@"
    ends 0 env -i LD_LIBRARY_PATH="${libraries-}" "$work/caller"
    has '>=1.2.3 <2.0.0' stdout
}

# told_prefix PREFIX DIRECTORY: the file for pkg-config in the directory has to have this prefix.
told_prefix() {
    sed -n 's/^prefix=//p' "$2/lib/pkgconfig/semver_parser.pc" > "$work/stdout"
    has "$1" stdout
}

# try_programs DIRECTORY: each program runs without an environment.
try_programs() {
    ends 0 env -i "$1/semver-parser" 1.2.3
    has 'version: 1.2.3
cargo: >=1.2.3 <2.0.0
npm: =1.2.3' stdout
    ends 1 env -i "$1/semver-parser" '|'
    printf '1.2.2\n1.9.0\n' > "$work/versions"
    ends 0 env -i "$1/release-filter" '^1.2.3' < "$work/versions"
    has 1.9.0 stdout
    ends 0 env -i "$1/release-filter" --help
    ends 1 env -i "$1/release-filter" '^1' < /dev/null
    ends 1 env -i "$1/compare-ranges" '^1.2.0' '>=1.4.0'
    has 'lost: >=1.2.0 <1.4.0
gained: >=2.0.0
shared: >=1.4.0 <2.0.0' stdout
    ends 0 env -i "$1/compare-ranges" '^1.2'
    has 'cargo: >=1.2.0 <2.0.0
npm: >=1.2.0 <2.0.0' stdout
    ends 0 env -i "$1/compare-ranges" '^1.2' '>=1.2.0, <2.0.0'
    ends 0 env -i "$1/compare-ranges" --npm '^1.2' '>=1.2.0 <2.0.0'
}

# stopped_while_compiling DIRECTORY COMMAND..: stops the command while the shared library is linked.
# It has to end by the signal, leave no temporary file, and put nothing into the directory.
stopped_while_compiling() {
    folder=$1
    shift
    rm -rf "$work/temporary" "$work/half"
    mkdir "$work/temporary"
    printf '#!/bin/sh\necho $$ > "%s/half"\nexec sleep 60\n' "$work" > "$work/bin/slow-compiler"
    chmod +x "$work/bin/slow-compiler"
    # With LC_ALL=C, since in another locale GNU make 4.3 may deadlock when it translates a message
    # after the signal: it waits for a lock that it holds itself.
    LC_ALL=C TMPDIR=$work/temporary CC=slow-compiler "$@" > "$work/stdout" 2> "$work/stderr" &
    script=$! status=0
    until [ -s "$work/half" ]; do sleep 0.05; done
    kill -s TERM "$script" "$(cat "$work/half")"
    wait "$script" 2> /dev/null || status=$?
    [ "$(kill -l "$status")" = TERM ] && [ -z "$(ls -A "$work/temporary")" ] && [ ! -e "$folder" ] || fail "stopped with status $status, and something is left"
}

# functions_of_header: prints the functions that the header declares but doesn't define.
functions_of_header() {
    sed -n '/^static inline/!s/^[a-z].*\(semver_parser_[a-z0-9_]*\)(.*/\1/p' rust/capi/include/semver_parser.h |
        LC_ALL=C sort
}

# manuals DIRECTORY ENDING: prints the paths of the pages of all functions and types in the header.
manuals() {
    sed -n 's/^[a-z].*\(semver_parser_[a-z0-9_]*\)(.*/\1/p
        s/^\(} \|typedef .* \)\(semver_parser_[a-z_]*\);$/\2/p' \
        rust/capi/include/semver_parser.h | LC_ALL=C sort | sed "s:.*:$1/&.$2:"
}

# same_calls NM-FLAGS..: a library has to export exactly the functions that the header declares.
same_calls() {
    functions_of_header > "$work/calls"
    [ -s "$work/calls" ] || fail 'the header declares no call'
    nm -g --defined-only "$@" | sed -n 's/^[0-9a-f]* [B-Zb-z] //p' | sed 's/@.*//' | LC_ALL=C sort | diff -u "$work/calls" -
}

top=$PWD
copy_checkout
cd "$checkout"
PATH=$work/bin:$PATH
export PATH
