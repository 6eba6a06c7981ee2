#!/bin/sh
# Compares builds of crates/small_inputs: tests/small-inputs.sh [PROGRAM]
#
# PROGRAM is the kit's build by LLVM, and PROGRAM.by-rattle, if it exists, the one by Rattle's own
# compiler. The other build is cargo's, of the same sources with their contracts erased. For each
# call, alphabet and length the program writes a checksum of what the call returns for every string,
# and all of these have to be the same. The program of Rattle's own compiler runs on fewer strings.
#
# Then edits are made in copies of the erased sources, and some checksum has to change after each.
# Without PROGRAM only this is tested.
set -eu
unset CDPATH
cd "$(dirname "$0")/.."
work=$(mktemp -d)
trap 'rm -rf "$work"' EXIT
trap 'exit 2' HUP INT TERM
CARGO_NET_OFFLINE=true CARGO_TERM_COLOR=never CARGO_TARGET_DIR=$work/target
export CARGO_NET_OFFLINE CARGO_TERM_COLOR CARGO_TARGET_DIR

# The calls that read a version, those that read a range, and among these the quicker ones.
of_versions='parse tokens parser read read-in compare explain contained'
quick='range-set comparators check explain-range terms set'
of_ranges="$quick meets report satisfies members operations upgrade"

# lines LENGTHS ALPHABET CALL..: prints lines of the input.
lines() {
    lengths=$1 alphabet=$2
    shift 2
    for length in $lengths; do
        for call; do echo "$call $alphabet $length"; done
    done
}

# all_lines: prints the input.
all_lines() {
    lines '0 1 2 3 4' characters $of_versions $of_ranges lines
    lines '1 2 3 4 5 6' versions $of_versions
    lines '1 2 3 4' ranges $of_ranges
    lines 5 ranges $quick
    lines '1 2 3 4 5 6' lines lines
}

# some_lines: prints an input for which the program takes a second.
some_lines() {
    lines '0 1 2' characters $of_versions $of_ranges lines
    lines '1 2 3 4 5' versions read-in explain
    lines '1 2 3' ranges $of_ranges
    lines '1 2 3' lines lines
}

# built DIRECTORY: builds the program in a directory such as rust, and prints its path.
built() {
    (cd "$1" && cargo test --quiet --release --no-run --test proved --message-format=json) |
        sed -n 's/.*"name":"proved".*"executable":"\([^"]*\)".*/\1/p'
}

# same FILE OTHER WHAT: two builds have to write the same lines.
same() {
    diff "$1" "$2" > "$work/log" || {
        head -n 20 "$work/log"
        echo "small inputs: cargo's build and $3 write other lines"
        exit 1
    }
}

# compare PROGRAM: compares the kit's builds with cargo's.
compare() {
    all_lines | "$1" > "$work/by-kit" &
    all_lines | "$program" small > "$work/by-cargo"
    wait $! || :
    same "$work/by-cargo" "$work/by-kit" "$1"
    [ ! -e "$1.by-rattle" ] || {
        some_lines | "$1.by-rattle" > "$work/by-rattle"
        same "$work/some" "$work/by-rattle" "$1.by-rattle"
    }
    awk '{ count += $(NF - 2) } END { print NR " checksums of " count " results, the same" }' \
        "$work/by-cargo"
}

# changes FILE OLD NEW: with this edit of an erased file, cargo's build has to write other lines.
changes() {
    rm -rf "$work/copy" && mkdir "$work/copy"
    cp -R rust/Cargo.toml rust/src rust/tests "$work/copy"
    OLD=$2 NEW=$3 awk '{
        at = index($0, ENVIRON["OLD"])
        if (at) {
            $0 = substr($0, 1, at - 1) ENVIRON["NEW"] substr($0, at + length(ENVIRON["OLD"]))
            count++
        }
        print
    } END { exit count != 1 }' "rust/src/proved/$1" > "$work/copy/src/proved/$1" || {
        echo "small inputs: $1 has not exactly one line with: $2"
        exit 1
    }
    planted=$(built "$work/copy")
    some_lines | "$planted" small > "$work/planted"
    ! cmp -s "$work/some" "$work/planted" || {
        echo "small inputs: $1 has the same checksums with: $3"
        exit 1
    }
}

program=$(built rust)
some_lines | "$program" small > "$work/some"
[ "$(some_lines | wc -l)" = "$(grep -c ' strings, ' "$work/some")" ] || {
    echo "small inputs: the program doesn't know each call, alphabet and length"
    exit 1
}
[ $# = 0 ] || compare "$1"
changes semver_versions/reader.rs 'patch <= MAX_SAFE_INTEGER' 'patch < MAX_SAFE_INTEGER'
changes semver_ranges/table.rs '(place) < most' '(place) <= most'
changes version_sets/boundaries.rs 'borrowed, digits).is_ge()' 'borrowed, digits).is_gt()'
changes release_filter/line_texts.rs "LineFeed => b'\n'" "LineFeed => b'\r'"
echo 'small inputs: passed, and 4 edits were found'
