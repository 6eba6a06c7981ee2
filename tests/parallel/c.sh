#!/bin/sh
# Tests the C library from C and from C++, under valgrind and under gcc's sanitizers, compiled by
# clang and as C++: the tables of cases, ranges that are parsed once, errors, null with a length,
# each allocation failing, two threads, and random calls in random order. Also checks that the
# header compiles without a warning with each standard. It isn't part of the gate. Needs gcc, g++,
# clang and valgrind (Debian: apt-get install gcc g++ clang valgrind), and cargo, which builds the
# library if it isn't built.
set -eu
cd "$(dirname "$0")/../.."
top=$PWD
. tools/built.sh
for tool in gcc g++ clang clang++ valgrind; do
    command -v "$tool" > /dev/null || {
        echo "test c needs $tool: apt-get install gcc g++ clang valgrind" >&2
        exit 2
    }
done
begin
library=out/lib/libsemver_parser.a
again $library

tests='rules readings sets errors replay refused nulls uses order'

# linked_with NAME: prints what a test is linked with. $work, which mktemp makes, has no blanks.
linked_with() {
    objects=$work/objects
    case $1 in
    uses | nulls) ;;
    refused) echo '-Wl,--wrap=malloc,--wrap=realloc,--wrap=free' ;;
    order) echo "$objects/order_calls.o $objects/texts.o" ;;
    *) echo "$objects/calls.o $objects/texts.o $objects/table.o" ;;
    esac
}

# compile COMPILER FLAGS..: compiles each test with the library.
compile() {
    rm -rf "$work/objects"
    mkdir "$work/objects"
    for name in $tests calls texts table order_calls; do
        "$@" -Wall -Wextra -Werror -O1 -g -pthread -c "tests/c/$name.c" -o "$work/objects/$name.o"
    done
    for name in $tests; do
        "$@" -x none -pthread -o "$work/$name" "$work/objects/$name.o" $(linked_with $name) $library
    done
}

# run COMMAND..: runs each test by a command, which fails on any memory error. Without a command it
# also runs the test of nulls, whose errors valgrind and sanitizers would count.
run() {
    for name in rules readings sets errors refused uses; do "$@" "$work/$name"; done
    [ $# != 0 ] || "$work/nulls"
    "$@" "$work/replay" crates/replayed_cases rust/tests/layers
    "$@" "$work/order" 600 1
}

# by_standards LANGUAGE COMPILER FLAG STANDARD..: compiles without a warning.
by_standards() {
    language=$1 compiler=$2 flag=$3
    shift 3
    for standard in "$@"; do
        "$compiler" -x "$language" -std="$standard" -Wall -Wextra -Wpedantic $flag -Werror -O2 -c tests/c/uses.c -o "$work/standard.o"
    done
    echo "by $compiler: $*"
}

by_standards c gcc '-Wmissing-prototypes -Wstrict-prototypes' c99 c11 c17 c2x
by_standards c clang '-Wmissing-prototypes -Wstrict-prototypes' c99 c11 c17 c2x
by_standards c++ g++ '' c++11 c++14 c++17 c++20 c++23
by_standards c++ clang++ '' c++11 c++14 c++17 c++20 c++2b
sanitizers='-fsanitize=address,undefined -fno-sanitize-recover=all'
compile gcc -std=c11 $sanitizers
echo 'with the sanitizers:'
run env
gcc -std=c11 -O1 -g -pthread -fsanitize=thread -o "$work/uses" tests/c/uses.c $library
echo 'with the sanitizer of threads:'
"$work/uses"
compile clang -std=c11
echo 'by clang:'
run
compile g++ -std=c++11 -x c++
echo 'as C++:'
run
compile gcc -std=c11
echo 'under valgrind:'
run valgrind -q --child-silent-after-fork=yes --error-exitcode=1 --leak-check=full --show-leak-kinds=all
echo 'C library: passed'
