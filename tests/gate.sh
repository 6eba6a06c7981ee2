#!/bin/sh
# Tests ./test in a copy that has stubs instead of everything that it runs.
#
# - It first says what it runs, and then how each part ended. At the end it names what was skipped
#   and what failed.
# - After a failed step it goes on. It exits with 1 if something failed.
# - Without the kit it runs what doesn't need the kit, and exits with 2.
# - Ctrl-C at a terminal, or a signal, ends all that it began, and leaves no temporary file.
# - It names the tools that are missing, and ends at once if cargo is too old, or if it can't write.
set -eu
unset CDPATH
cd "$(dirname "$0")/.."
work=$(mktemp -d)
trap 'rm -rf "$work"' EXIT
trap 'exit 2' HUP INT TERM
copy="$work/a copy" press=$PWD/tests/at-terminal.py

fail() {
    echo "gate: $1"
    cat "$work/said"
    exit 1
}

# stub FILE BODY: makes a script that prints its name, fails if it is in the variable FAILING, and
# says that it skips everything if it is in SKIPPING. If it is in LASTING, it and its children last
# long. Some of these are in sessions of their own and ignore signals, and it begins them one after
# another, so that it is stopped while it does.
stub() {
    mkdir -p "$(dirname "$1")"
    cat > "$1" << END
#!/bin/sh
$2
case " \$LASTING " in *" \${0##*/} "*)
    mktemp > /dev/null
    slumber$$ 600 &
    sh -c 'slumber$$ 600 & slumber$$ 600; :' &
    echo "lasts \${0##*/} \$*"
    for each in 1 2 3 4 5 6 7 8 9; do
        setsid sh -c 'trap "" INT TERM; slumber$$ 600; :' &
        sleep 0.01
    done
    slumber$$ 600
    ;;
esac
echo "ran \${0##*/} \$*"
case " \$SKIPPING " in *" \${0##*/} "*) echo "\${0##*/}: no tool, so nothing is tested" ;; esac
case " \$FAILING " in *" \${0##*/} "*) exit 3 ;; esac
END
    chmod +x "$1"
}

# Makes stubs of the scripts and commands that ./test runs.
make_copy() {
    mkdir -p "$copy/tools" "$copy/crates/library_tests" "$copy/crates/other"
    cp test "$copy"
    cp tools/built.sh "$copy/tools"
    mkdir -p "$copy/rust/capi"
    cp rust/capi/Cargo.toml "$copy/rust/capi"
    echo 'a_call 2' > "$copy/crates/library_tests/requests"
    printf '# two crates\none:\nother: one\n' > "$copy/crates.txt"
    for script in $(grep -o 'tests/[a-z-]*\.[a-z]*' test) rust/wasm/build.sh; do
        stub "$copy/$script" ''
    done
    for script in c.sh python.sh examples.sh checkers.sh release.sh growth.py audit.py; do
        stub "$copy/tests/parallel/$script" ''
    done
    for command in cargo npm; do
        stub "$work/bin/$command" ''
        stub "$work/without-the-kit/$command" ''
    done
    cp "$(command -v sleep)" "$work/bin/slumber$$"
    # What `rt ci` builds has to be executable, and newer than a file that ./test makes before.
    stub "$work/bin/rt" 'if [ $1 = ci ] && [ -z "$BUILDS_NOTHING" ]; then
    sleep 0.1
    for name in semver_parser_main release_filter_main compare_ranges_main; do
        mkdir -p crates/$name/out
        : > crates/$name/out/$name.by-rattle
        chmod +x crates/$name/out/$name.by-rattle
    done
fi'
}

# ends STATUS ARGUMENT..: runs the copy. The scripts in FAILING fail.
ends() {
    wanted=$1 status=0
    shift
    PATH="$tools" "$copy/test" "$@" > "$work/said" 2>&1 || status=$?
    [ "$status" = "$wanted" ] || fail "status $status instead of $wanted"
    says_how_each_ended
}

# says_how_each_ended: checks that the announcement comes first, and that there is a line for each
# part and a count of the parts.
says_how_each_ended() {
    grep -n '^This runs, side by side:$' "$work/said" | grep -q '^[12]:' ||
        fail 'it does not say first what it runs'
    grep -q 'rt ci: proofs of 2 crates' "$work/said" || fail 'it counts other crates'
    for ended in passed failed; do
        count=$(grep -c "^$ended: .* ([0-9]* s)$" "$work/said") || :
        grep -q "^parts: .*\<$count $ended\>" "$work/said" ||
            fail "$count lines say that a part $ended"
    done
}

# names_failed LINE..: the output has to end with these lines, in any order.
names_failed() {
    printf '    %s\n' "$@" | LC_ALL=C sort > "$work/wanted"
    sed '1,/^failed:$/d' "$work/said" | LC_ALL=C sort | cmp -s - "$work/wanted" ||
        fail "it should name as failed: $*"
}

# runs COUNT: this many steps have to run.
runs() {
    count=$(grep -c '^ran ' "$work/said") || :
    [ "$count" = "$1" ] || fail "$count steps ran instead of $1"
}

# skips LINE..: these have to be listed as skipped.
skips() {
    printf '    %s\n' "$@" | LC_ALL=C sort > "$work/wanted"
    sed -n '/^skipped:$/,/^[^ s]/s/^    /    /p' "$work/said" | LC_ALL=C sort |
        cmp -s - "$work/wanted" || fail "it should name as skipped: $*"
}

# nothing_is_left: no temporary file and no process has to be left.
nothing_is_left() {
    [ -z "$(ls -A "$TMPDIR")" ] || fail "it leaves $(ls "$TMPDIR")"
    # The pattern isn't itself a word that it finds.
    left=$(grep -l "[s]lumber$$" /proc/[0-9]*/cmdline 2> /dev/null) || return 0
    fail "it leaves processes: $left"
}

# stopped_at TEXT LASTING ARGUMENT..: Ctrl-C at a terminal has to end all at once when TEXT is
# there. Then it says which parts had passed.
stopped_at() {
    text=$1 LASTING=$2 status=0
    shift 2
    PATH="$tools" "$press" "$text" "$copy/test" "$@" > "$work/said" 2>&1 || status=$?
    LASTING=''
    [ "$status" = 130 ] || fail "status $status after Ctrl-C at: $text"
    nothing_is_left
    # A part may have passed that had yet to be printed.
    sed -i 's/\r$//; s/^^C//' "$work/said"
    sed -n 's/^passed: \(.*\) ([0-9]* s)$/    \1/p' "$work/said" | sort > "$work/printed"
    sed -n '/^passed before:$/,/^parts: /p' "$work/said" | sort > "$work/listed"
    [ -z "$(comm -23 "$work/printed" "$work/listed")" ] || fail "it should name what passed: $text"
    grep -q '^parts: .* passed, 0 failed' "$work/said" || fail 'it does not count the parts'
    ! grep -q '^failed: ' "$work/said" || fail 'it says that what was stopped has failed'
}

stopped_at_a_terminal() {
    stopped_at 'This runs' 'c-header.py rust-crate.sh rt'
    stopped_at 'lasts rt ci' 'c-header.py rust-crate.sh rt'
    stopped_at 'passed: tests/c-header.py' 'c-manuals.py rust-crate.sh rt'
    stopped_at 'passed: tests/page-examples.py' 'c-calls.sh runs.py documents.py'
    stopped_at 'passed: tests/eraser-attacks.py' 'c.sh' all
}

stopped_by_signals() {
    for signal in HUP INT TERM; do
        : > "$work/said"
        LASTING='c-manuals.py rt' status=0
        env --default-signal=$signal PATH="$tools" "$copy/test" > "$work/said" 2>&1 &
        gate=$!
        until grep -q '^passed: tests/c-header.py' "$work/said"; do sleep 0.05; done
        LASTING=''
        kill -s $signal $gate
        wait $gate 2> /dev/null || status=$?
        [ "$(kill -l "$status")" = $signal ] || fail "status $status after $signal"
        nothing_is_left
        grep -q '^stopped$' "$work/said" || fail "it says nothing after $signal"
    done
}

# Each tool without which a test skips something is in the list of ./test. Without any tool it
# prints the whole list, and with all of them nothing, except for the files of serde.
names_what_is_missing() {
    for tool in $(sed -n "s/.*['\"][A-Za-z ,]*: no \([a-z-]*\)[ ,].*/\1/p" tests/*.*); do
        case $tool in cargo | node-semver | python3 | rt | tool) continue ;; esac
        sed -n '/^missing_tools/,/^END/p' test | grep -q "\<$tool\>" || fail "the list has no $tool"
    done
    mkdir "$work/no tool" "$work/each tool"
    for tool in dirname readlink sh; do ln -s "$(command -v $tool)" "$work/no tool"; done
    FAILING=build.sh PATH="$work/no tool" "$copy/test" tools > "$work/said"
    count=$(sed -n '/^missing_tools/,/^END/p' test | grep -c '^[^ ].*|.*|')
    [ "$(grep -c ' (.*)$' "$work/said")" = "$count" ] || fail "it should name $count tools"
    for tool in cargo python3 $(grep -o 'command -v [a-z_0-9-]*' test | sed 's/.* //'); do
        stub "$work/each tool/$tool" ''
    done
    PATH="$work/no tool:$work/each tool" "$copy/test" tools > "$work/said"
    ! grep -v '^serde ' "$work/said" || fail 'it names a tool that is there'
}

# It ends before it begins if cargo is too old, or if something can't be written to.
begins_only_if_it_can() {
    stub "$work/old/cargo" 'echo "cargo 1.65.0 (x)"; exit'
    refuses "needs cargo 1.79 or later, and the command cargo is 1.65.0 (rustup; Debian 12: \
apt-get install cargo-web; from Debian 13 on: apt-get install cargo)" \
        env PATH="$work/old:$tools" "$copy/test"
    if [ "$(id -u)" = 0 ]; then
        chmod 755 "$work"
        refuses "cannot write to $copy" setpriv --reuid=65534 --regid=65534 --clear-groups \
            env PATH="$tools" "$copy/test"
        chown 65534 "$copy"
        refuses 'root tests nothing in a checkout of another user' env PATH="$tools" "$copy/test"
        chown 0 "$copy"
    else
        chmod a-w "$copy/crates/other"
        refuses "cannot write to $copy/crates/other" env PATH="$tools" "$copy/test"
        chmod u+w "$copy/crates/other"
    fi
}

# refuses WHY COMMAND..: the command has to exit with 2, and to print only why.
refuses() {
    why=$1 status=0
    shift
    "$@" > "$work/said" 2>&1 || status=$?
    [ "$status" = 2 ] && [ "$(cat "$work/said")" = "test: $why" ] || fail "it should print: $why"
}

make_copy
tools=$work/bin:$PATH
export FAILING='' SKIPPING='' LASTING='' BUILDS_NOTHING='' TMPDIR="$work/temporary"
mkdir "$TMPDIR"
ends 0
! grep -q '^failed:\|^skipped:' "$work/said" || fail 'it names a step that did not fail'
all=$(grep -c '^ran ' "$work/said")
SKIPPING='serde.sh documents.py'
ends 0
skips 'serde.sh: no tool, so nothing is tested' 'documents.py: no tool, so nothing is tested'
SKIPPING=''
FAILING='rust-crate.sh c-header.py js-package.sh packages.sh runs.py'
ends 1
runs "$all"
names_failed tests/rust-crate.sh tests/c-header.py tests/js-package.sh tests/packages.sh \
    'tests/runs.py semver-parser crates/semver_parser_main/out/semver_parser_main' \
    'tests/runs.py semver-parser crates/semver_parser_main/out/semver_parser_main.by-rattle' \
    'tests/runs.py release-filter crates/release_filter_main/out/release_filter_main' \
    'tests/runs.py release-filter crates/release_filter_main/out/release_filter_main.by-rattle' \
    'tests/runs.py compare-ranges crates/compare_ranges_main/out/compare_ranges_main' \
    'tests/runs.py compare-ranges crates/compare_ranges_main/out/compare_ranges_main.by-rattle'
FAILING=rt
ends 1
names_failed 'rt ci' 'refuse_each_request crates/library_tests'
FAILING='' BUILDS_NOTHING=yes
rm -rf "$copy"/crates/*/out
ends 1
names_failed programs_were_built
FAILING='gate.sh documents.py python.sh release.sh' BUILDS_NOTHING=''
ends 1 all
runs $((all + 11))
names_failed tests/gate.sh tests/documents.py 'tests/documents.py --must-fail' \
    tests/parallel/python.sh tests/parallel/release.sh
FAILING=''
names_what_is_missing
begins_only_if_it_can
stopped_at_a_terminal
stopped_by_signals

# Without the kit.
tools=$work/without-the-kit:/usr/bin:/bin
if PATH=$tools command -v rt > /dev/null; then
    echo 'gate: rt is in /usr/bin, so a run without the kit is not tested'
else
    ends 2
    runs $((all - 8))
    ! grep -q '^ran \(rt\|runs.py\) ' "$work/said" || fail 'something of the kit runs'
    tail -n 1 "$work/said" | grep -q '^test: there is no command rt, so these were not run: the ' ||
        fail 'it does not say what was not run'
    ends 2 all
    skips 'small inputs, audit: no rt, so these are not run'
    FAILING=packages.sh
    ends 1
    names_failed tests/packages.sh
fi
echo 'gate: says how each part ended, goes on after a failure, and ends when it is stopped, passed'
