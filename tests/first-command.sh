#!/bin/sh
# Tests ./semver-parser in a small repository, with scripts instead of cargo and the kit.
#
# - It runs cargo's build at once, then lets the kit prove, and from then on runs the kit's build.
# - Without cargo, without the kit and with PROVE=no, and where nothing may be written.
# - A signal, or Ctrl-C at a terminal, ends all that it began, and leaves no build that counts.
# - Two at once don't prove at the same time.
set -eu
unset CDPATH
cd "$(dirname "$0")/.."
. tests/checkout.sh
small="$work/in small" kit="$work/in small/crates/semver_parser_main"
press=$checkout/tests/at-terminal.py
erased='semver-parser: cargo builds this from the source with its contracts erased;'
takes=$(sed -n "s/^takes='\(.*\)'$/\1/p" semver-parser)
then_proved="$erased then the kit proves it, which takes $takes"
proved_first="semver-parser: first the kit proves it, which takes $takes"
cannot="semver-parser: semver-parser isn't built, and cannot be"

# make_small: makes the repository. `alone` runs a command with the stubs, and with the tools that
# ./semver-parser needs.
make_small() {
    mkdir -p "$kit/src" "$kit/specs" "$kit/proofs/deep" "$small/crates/a/src" \
        "$small/rust/capi" "$work/tools"
    seq 300 > "$kit/proofs/deep/Answers.antt"
    seq 100 > "$small/crates/a/src/lib.rt"
    : > "$small/Cargo.toml"
    echo 'rust-version = "1.79"' > "$small/rust/capi/Cargo.toml"
    printf '# what\na: thiserror\nb: a\nsemver_parser_main: a\n' > "$small/crates.txt"
    cp -R tools semver-parser "$small"
    for tool in awk cat chmod date dirname env find flock grep id mkdir mktemp readlink rm sed seq \
        setsid sh sleep tail touch wc; do
        ln -s "$(command -v "$tool")" "$work/tools/$tool"
    done
    stub rustc 'echo /toolchain'
    stub cc ''
    cp "$work/tools/sleep" "$work/bin/slumber$$"
    alone="env PATH=$work/bin:$work/tools TMPDIR=$work/temporary"
}

# What the stubs do: cargo builds a program that exits with 5, and the kit one that
# exits with 7.
# Both print their argument.
version="[ \"\$1\" != --version ] || { echo 'cargo 1.79.0 (x)' && exit; }"
builds="$version
echo \"\$*\" >> '$work/builds'
mkdir -p '$small/out/cargo/release' && cd '$small/out/cargo/release'
printf '#!/bin/sh\necho \"cargo <\$1>\"\nexit 5\n' > semver-parser && chmod +x semver-parser"
proves="[ \"\$*\" = 'run -- 1.2.3' ] && echo proved >> '$work/proofs'
printf '#!/bin/sh\necho \"kit <\$1>\"\nexit 7\n' > out/semver_parser_main
chmod +x out/semver_parser_main"

# `shows TEXT` waits until ./semver-parser has written TEXT.
shows="shows() {
    for turn in \$(seq 300); do
        ! grep -q \"\$1\" '$work/stdout' '$work/stderr' || return 0
        sleep 0.1
    done
}"

# Processes that last, with children. One is in a session of its own, and ignores signals.
children="slumber$$ 600 &
sh -c 'slumber$$ 600 & slumber$$ 600; :' &
setsid sh -c 'trap \"\" INT TERM; slumber$$ 600; :' &"
lasts="slumber$$ 600; :"

# anew: begins with nothing built.
anew() {
    rm -rf "$small/out" "$small"/crates/*/out "$work/temporary"
    mkdir "$work/temporary"
    : > "$work/proofs" && : > "$work/builds"
    stub cargo "$builds"
    stub rt "$proves"
}

# answers STATUS: ./semver-parser has to end with this status, which is 5 from cargo's build and 7
# from the kit's. It has to leave no temporary file and no process.
answers() {
    rm -rf "$work/temporary" && mkdir "$work/temporary"
    ends "$1" $alone "$small/semver-parser" 'a b'
    case $1 in 5) has 'cargo <a b>' stdout ;; 7) has 'kit <a b>' stdout ;; esac
    nothing_is_left
}

nothing_is_left() {
    [ -z "$(ls -A "$work/temporary")" ] || fail "it leaves $(ls "$work/temporary")"
    # The pattern isn't itself a word that it finds.
    left=$(grep -l "[s]lumber$$" /proc/[0-9]*/cmdline 2> /dev/null) || return 0
    fail "it leaves processes: $left"
}

# says LINE..: these have to be the lines on standard error, with N for the time. The lines of the
# progress are left out.
says() {
    sed -i '/^proving: /d; s/[0-9]*:[0-9][0-9]/N/' "$work/stderr"
    has "$(printf '%s\n' "$@")" stderr
}

says_nothing() {
    [ ! -s "$work/stderr" ] || fail 'it should print nothing'
}

# counts PROOFS BUILDS: this many proofs and builds have to have been made since `anew`.
counts() {
    [ "$(wc -l < "$work/proofs")" = "$1" ] || fail "$(wc -l < "$work/proofs") proofs instead of $1"
    [ "$(wc -l < "$work/builds")" = "$2" ] || fail "$(wc -l < "$work/builds") builds instead of $2"
}

# The first call runs cargo's build and proves; then the kit's build runs, until a source is newer.
as_proved() {
    anew
    stub rt "$shows
sleep 0.1; mkdir ../a/out && : > ../a/out/begun && shows '(a)'
: > out/begun && shows '(semver_parser_main)'
grep -qx 'cargo <a b>' '$work/stdout' && $proves"
    answers 5
    grep '^proving: ' "$work/stderr" | sed 's/[0-9]*:[0-9][0-9]/N/' > "$work/lines"
    has 'proving: crate 1 of 2 (a), N, 0 to 25 % of all
proving: crate 2 of 2 (semver_parser_main), N, 25 to 100 % of all' lines
    says "$then_proved" 'proved, in N'
    grep -q -- '-p semver-parser-programs --bin semver-parser$' "$work/builds" ||
        fail 'cargo builds something else'
    stub rt "$proves"
    answers 7
    says_nothing
    counts 1 1
    for file in crates.txt crates/semver_parser_main/proofs/deep/Answers.antt; do
        sleep 0.1
        touch "$small/$file"
        answers 5
        answers 7
        says_nothing
    done
    counts 3 1
    sleep 0.1
    touch "$small/rust" "$small/Cargo.toml" "$small/crates.txt"
    answers 5
    counts 4 2
    # What is edited during the proof is newer.
    touch "$small/crates.txt"
    stub rt "sleep 0.1; touch '$small/crates.txt'; sleep 0.1; $proves"
    answers 5
    answers 5
}

# Who reads the answer from a pipe needn't wait for the proof.
through_a_pipe() {
    anew
    stub rt "for turn in \$(seq 100); do [ ! -e '$work/closed' ] || break; sleep 0.1; done
[ -e '$work/closed' ] && $proves"
    $alone "$small/semver-parser" 'a b' 2> "$work/stderr" |
        { cat > "$work/stdout" && : > "$work/closed"; }
    has 'cargo <a b>' stdout
    says "$then_proved" 'proved, in N'
}

# If the proof fails, it prints what the kit printed, and runs nothing that isn't proved.
when_a_proof_fails() {
    anew
    stub rt 'echo "not proved"; exit 1'
    answers 2
    has 'cargo <a b>' stdout
    says "$then_proved" 'not proved'
    rm "$work/bin/cargo"
    answers 2
    [ ! -s "$work/stdout" ] || fail 'a program runs that is not proved'
}

# If cargo's build fails, the kit's runs. Without the kit, this is an error.
when_a_build_fails() {
    anew
    stub cargo '[ "$1" = --version ] || { echo "no linker"; exit 1; } >&2'
    answers 7
    says "$then_proved" 'no linker' "$proved_first" 'proved, in N'
    anew
    stub cargo '[ "$1" = --version ] || { echo "no linker"; exit 1; } >&2'
    rm "$work/bin/rt"
    answers 2
    says "$erased nothing is proved, since there is no command rt" 'no linker'
}

# Without the kit, or with PROVE=no, nothing is proved, and this is said when cargo builds.
without_a_proof() {
    anew
    rm "$work/bin/rt"
    answers 5
    says "$erased nothing is proved, since there is no command rt"
    answers 5
    says_nothing
    counts 0 1
    # cargo builds nothing if only a page was changed.
    touch "$small/Cargo.toml"
    stub cargo ':'
    answers 5
    answers 5
    says_nothing
    anew
    export PROVE=no
    answers 5
    says "$erased nothing is proved, since PROVE is no"
    answers 5
    says_nothing
    counts 0 1
    PROVE=''
    answers 5
    counts 1 1
    PROVE=no
    answers 7
    unset PROVE
}

# Without cargo, or with one that is too old, the kit's build is the answer.
without_cargo() {
    for cargo in '' 'echo "cargo 1.65.0 (x)"'; do
        anew
        rm "$work/bin/cargo"
        [ -z "$cargo" ] || stub cargo "$cargo"
        answers 7
        says "$proved_first" 'proved, in N'
        answers 7
        says_nothing
        rm "$work/bin/rt"
        touch "$small/crates.txt"
        refuses "$cannot: there is no command rt (README names the kit that has it), and no cargo, \
which builds it unproved" $alone "$small/semver-parser" 1.2.3
    done
}

# Without a linker, too.
without_a_linker() {
    anew
    rm "$work/bin/cc"
    CARGO_HOME=$work answers 7
    says "$proved_first" 'proved, in N'
    stub cc ''
}

# At a terminal, one line is rewritten.
at_a_terminal() {
    anew
    stub rt "$shows
sleep 0.1; mkdir -p ../a/out && : > ../a/out/begun && shows '0 to 25 %'
echo 'so far: 0 of 3 functions checked; the verdict comes last'
echo 'so far: 2 of 3 functions checked' && shows '2 of 3'
: > out/begun && shows '25 to 100 %'
echo 'so far: 4 of 9 functions checked' && shows '4 of 9'
$proves"
    ends 5 "$press" '' $alone "$small/semver-parser" 'a b'
    tr '\r' '\n' < "$work/stdout" |
        sed 's/\x1b\[?7[lh]//g; s/\x1b\[K//g; s/[0-9]*:[0-9][0-9]/N/' |
        grep -v '^$' | uniq > "$work/lines"
    has "$then_proved
cargo <a b>
proving: crate 1 of 2 (a), N, 0 to 25 % of all
proving: crate 1 of 2 (a), 2 of 3 functions, N, 16 % of all
proving: crate 2 of 2 (semver_parser_main), N, 25 to 100 % of all
proving: crate 2 of 2 (semver_parser_main), 4 of 9 functions, N, 58 % of all
proved, in N" lines
}

# stopped_at TEXT: at a terminal, Ctrl-C has to end all at once when TEXT is there.
stopped_at() {
    rm -rf "$work/temporary" && mkdir "$work/temporary"
    ends 130 "$press" "$1" $alone "$small/semver-parser" 'a b'
    nothing_is_left
}

# Ctrl-C before and while cargo builds, before and while the kit proves, and after it has linked. A
# later call proves again.
stopped_at_a_terminal() {
    anew
    stub cargo "$version; $children echo lasts >&2; $lasts"
    stopped_at 'contracts erased'
    stopped_at lasts
    anew
    stub rt "$children $lasts"
    stopped_at 'cargo <'
    stub rt "$children mkdir -p ../a/out; sleep 0.1; : > ../a/out/begun; $lasts"
    stopped_at '(a)'
    stub rt "$proves; $children sleep 0.1; : > out/begun; $lasts"
    stopped_at '(semver_parser_main)'
    stub rt "$proves"
    answers 5
    counts 2 1
    answers 7
}

# stopped_by SIGNAL: the signal has to end all at once, and then the script.
stopped_by() {
    rm -rf "$work/temporary" && mkdir "$work/temporary"
    rm -f "$work/half"
    stub rt "$children echo begun > '$work/half'; $lasts"
    env --default-signal="$1" $alone "$small/semver-parser" 'a b' > "$work/stdout" 2>&1 &
    script=$! status=0
    until [ -s "$work/half" ]; do sleep 0.05; done
    sent=$(date +%s)
    kill -s "$1" "$script"
    wait "$script" 2> /dev/null || status=$?
    [ $(($(date +%s) - sent)) -lt 10 ] || fail "stopped by $1: it waits for the proof"
    [ "$(kill -l "$status")" = "$1" ] || fail "stopped by $1: status $status"
    nothing_is_left
    stub rt "$proves"
    answers 5
    answers 7
    touch "$small/crates.txt"
}

# While one proves, another one runs cargo's build, or waits for the kit's without cargo.
two_at_once() {
    anew
    stub rt "echo begun > '$work/half'
for turn in \$(seq 300); do [ ! -e '$work/go on' ] || break; sleep 0.1; done; $proves"
    for status in 5 7; do
        rm -f "$work/half" "$work/go on"
        $alone "$small/semver-parser" 'a b' > "$work/first" 2>&1 &
        first=$!
        until [ -s "$work/half" ]; do sleep 0.05; done
        if [ "$status" = 5 ]; then
            answers_meanwhile
            : > "$work/go on"
        else
            rm "$work/bin/cargo"
            { sleep 1 && : > "$work/go on"; } &
            ends 7 $alone "$small/semver-parser" 'a b'
            says 'semver-parser: waits while another one proves it'
        fi
        wait "$first" || :
        grep -qx 'proved, in .*' "$work/first" || fail 'the first one did not prove'
        touch "$small/crates.txt"
    done
    counts 2 1
}

answers_meanwhile() {
    ends 5 $alone "$small/semver-parser" 'a b'
    has 'cargo <a b>' stdout
    says "$erased another ./semver-parser proves it"
}

# If it is killed, its proof goes on, and no other call proves. When that has ended, the next one
# does.
when_it_is_killed() {
    anew
    rm -f "$work/half"
    stub rt "echo \$\$ > '$work/half'; exec slumber$$ 600"
    $alone "$small/semver-parser" 'a b' > /dev/null 2>&1 &
    first=$!
    until [ -s "$work/half" ]; do sleep 0.05; done
    kill -s KILL "$first"
    wait "$first" 2> /dev/null || :
    answers_meanwhile
    kill "$(cat "$work/half")"
    while kill -0 "$(cat "$work/half")" 2> /dev/null; do sleep 0.05; done
    stub rt "$proves"
    answers 5
    answers 7
    counts 1 1
}

# as_another COMMAND..: runs a command as a user who may not write to the checkout. Anyone except
# root already runs it so.
as_another() {
    [ "$(id -u)" != 0 ] || set -- setpriv --reuid=65534 --regid=65534 --clear-groups "$@"
    "$@"
}

# Without write permission, what is built runs, and what isn't built is an error. Root builds
# nothing in a checkout of another user.
where_nothing_may_be_written() {
    anew
    answers 5
    [ "$(id -u)" = 0 ] || chmod -R a-w "$small"
    ends 7 as_another $alone "$small/semver-parser" 1.2.3
    [ "$(id -u)" = 0 ] || chmod u+w "$small/crates.txt"
    touch "$small/crates.txt"
    refuses "$cannot: $small may not be written to" as_another $alone "$small/semver-parser" 1.2.3
    [ "$(id -u)" = 0 ] || {
        chmod -R u+w "$small"
        echo 'first command: not as root, so what root may not do is not tested'
        return
    }
    chown 65534 "$small"
    refuses "${cannot%, *}, and root builds nothing in a checkout of another user: run make as its \
owner, then sudo make install" $alone "$small/semver-parser" 1.2.3
}

# With the real cargo.
for_real() {
    command -v cargo > /dev/null ||
        { echo 'first command: no cargo, so no build is tested' && return; }
    PROVE=no ends 0 ./semver-parser 1.2.3
    has 'version: 1.2.3
cargo: >=1.2.3 <2.0.0
npm: =1.2.3' stdout
    ! ls out/cargo/release/release-filter 2> /dev/null || fail 'cargo builds another program, too'
}

for_real
make_small
as_proved
through_a_pipe
when_a_proof_fails
when_a_build_fails
without_a_proof
without_cargo
without_a_linker
at_a_terminal
stopped_at_a_terminal
anew
for signal in HUP INT TERM; do stopped_by $signal; done
two_at_once
when_it_is_killed
where_nothing_may_be_written
echo 'first command: passed'
