#!/bin/sh
# Tests each C function: short and long strings, each dialect, each rule for pre-releases, ranges
# that are parsed once, errors and their messages, each allocation failing, the tables of cases in
# crates/replayed_cases and rust/tests/layers, and random calls in random order. Builds the library with make. ./test c
# runs the same tests under valgrind and sanitizers.
set -eu
unset CDPATH
cd "$(dirname "$0")/.."
command -v cc > /dev/null || { echo 'C functions: no cc, so they are not tested' && exit; }
work=$(mktemp -d)
trap 'rm -rf "$work"' EXIT
trap 'exit 2' HUP INT TERM
library=out/lib/libsemver_parser.a
make -s $library
for source in calls texts table; do cc -O1 -c -o "$work/$source.o" "tests/c/$source.c"; done
for name in rules readings sets errors replay; do
    cc -O1 -o "$work/$name" "tests/c/$name.c" "$work"/*.o $library
done
cc -O1 -o "$work/nulls" tests/c/nulls.c $library
cc -O1 -o "$work/refused" tests/c/refused.c $library -Wl,--wrap=malloc,--wrap=realloc,--wrap=free
cc -O1 -pthread -o "$work/uses" tests/c/uses.c $library
for name in rules readings sets errors nulls refused uses; do "$work/$name"; done
"$work/replay" crates/replayed_cases rust/tests/layers

# A random call returns the same result after other calls as it does alone. Each function is among
# them.
cc -O1 -o "$work/order" tests/c/order.c tests/c/order_calls.c "$work/texts.o" $library
"$work/order" 2000 1
for name in $(sed -n 's/^ *\(semver_parser_[a-z_]*\);$/\1/p' rust/capi/semver_parser.map); do
    grep -q "\b$name(" tests/c/order_calls.c || {
        echo "C functions: order has no call of $name"
        exit 1
    }
done

# Each type has the same layout whether or not enumerations are as short as possible.
for flag in -fno-short-enums -fshort-enums; do
    cc $flag -Wall -Wextra -Werror -o "$work/layout" tests/c/layout.c
    "$work/layout" > "$work/layout$flag"
    cc $flag -O1 -pthread -o "$work/uses" tests/c/uses.c $library
    "$work/uses"
done
diff "$work/layout-fno-short-enums" "$work/layout-fshort-enums"

# The example in C of docs/COMING_FROM.md prints what that page says.
include=rust/capi/include
tests/documents.py --example-in-c > "$work/example.c"
cc -Wall -Wextra -Werror -I$include -o "$work/example" "$work/example.c" $library
[ "$("$work/example")" = "$(tests/documents.py --output-in-c)" ]

# The example in the header.
{
    echo '#include <semver_parser.h>'
    echo '#include <stdio.h>'
    echo 'int main(void) {'
    sed -n '/^ \*     semver_parser_options npm/,/^ \*     }$/s/^ \*     //p' $include/semver_parser.h
    echo 'return satisfies ? 0 : 1; }'
} > "$work/header.c"
cc -Wall -Wextra -Werror -I$include -o "$work/header" "$work/header.c" $library
"$work/header"

# The examples in the manuals.
mkdir "$work/manual"
tests/c-manuals.py --examples "$work/manual"
for source in "$work"/manual/*.c; do
    name=${source%.c}
    cc -Wall -Wextra -Werror -I$include -o "$name" "$source" $library
    [ ! -e "$name.wanted" ] || "$name" | diff "$name.wanted" -
done
manual=$work/manual/semver_parser
[ "$("$manual" '^1.2' 1.9.0 2.0.0 1.2 1.10.0)" = "$(printf '1.9.0\n1.10.0\nhighest: 1.10.0')" ]
[ "$("$manual" '^1,' 2>&1)" = "$(printf 'invalid range: %s\n    ^1,\n      ^' \
    'npm separates comparators by spaces; Cargo takes commas')" ]
echo 'C functions: passed'
