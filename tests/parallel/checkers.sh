#!/bin/sh
# Runs check-lock-file and compare-requirements on the cases in python/cases, and compares their
# output with the files next to them. It installs nothing, and isn't part of the gate. Needs cargo,
# a C compiler, git and python3 with PyYAML (Debian: apt-get install cargo gcc git python3
# python3-yaml).
set -eu
top=$(dirname -- "$(dirname -- "$(dirname -- "$(readlink -f -- "$0")")")")
cd "$top"
. tools/built.sh
. tests/parallel/same.sh
for tool in cargo "${CC:-cc}" git python3; do
    command -v "${tool%% *}" > /dev/null || refuse "needs $tool: apt-get install cargo gcc git python3"
done
begin
library=out/lib/libsemver_parser.so.$(cat VERSION)
again "$library" || refuse 'cannot build the C library'
export SEMVER_PARSER_LIBRARY="$top/$library" PYTHONDONTWRITEBYTECODE=1
unset PYTHONPATH $(git rev-parse --local-env-vars)
cd python
check=bin/check-lock-file compare=bin/compare-requirements
fields="$check --quiet --format tsv"

# The modules by themselves.
python3 -W error -m unittest tests.test_checkers 2> "$work/log" || { cat "$work/log" && exit 1; }
echo 'modules: passed'

# checked STATUS FILE [--strict]: checks a file of cases/. The expected lines, and the error if
# there is one, are next to it; the lines with --strict have their own file.
checked() {
    stored=cases/${2%.*}${3:+.strict}
    lines=$stored.expected told=$stored.told
    [ -e "$lines" ] || lines=/dev/null
    [ -e "$told" ] || told=/dev/null
    same "${3:+$3 }$2" "$1" /dev/null "$lines" "$told" $fields ${3:+"$3"} "cases/$2"
}

# checked_as_named STATUS NAME: checks a Cargo.lock of cases/cargo-lock, as `checked` does, but in a
# copy in which each Cargo.toml.case is named Cargo.toml. They aren't named so here, because for a
# dependency by `git = URL` cargo reads each Cargo.toml of this repository: it prints an error for a
# manifest that it can't use, and before 1.94 also for TOML 1.1.
checked_as_named() {
    stored=cases/cargo-lock/$2 copy=$work/named/cases/cargo-lock/$2
    lines=$stored/Cargo.expected told=$stored/Cargo.told
    [ -e "$lines" ] || lines=/dev/null
    [ -e "$told" ] || told=/dev/null
    mkdir -p "${copy%/*}" && cp -R "$stored" "$copy"
    find "$copy" -name Cargo.toml.case -execdir mv {} Cargo.toml \;
    same "$2/Cargo.lock" "$1" /dev/null "$lines" "$told" \
        sh -c 'cd "$1" && shift && exec "$@"' - "$work/named" "$PWD/"$fields "$stored/Cargo.lock"
}

# refused TOLD INPUT PROGRAM ARGUMENT..: runs a program on an input. It has to report this error,
# and to print nothing else.
refused() {
    echo "$1" > "$work/told"
    input=$2
    shift 2
    same "$*" 2 "$input" /dev/null "$work/told" "$@"
}

# ---- npm

for name in package-lock version-1 version-2 links missing peers kinds accepted any archives archives-1 names ranges aliases aliases-1 versions overrides/package-lock canaries tags \
    unread from-npm/package-lock stale/package-lock workspaces/package-lock workspaces-1/package-lock legacy-peers/package-lock overrides-turn/package-lock workspaces-stale/package-lock overrides-conflict/package-lock overrides-linked/package-lock overrides-late/package-lock peers-conflict/package-lock peers-strict/package-lock fetched/package-lock gone-links/requires-1 gone-links/requires-3; do
    checked 1 "$name.json"
done
for name in nothing-wrong canaries-right left-alone/package-lock own-versions/package-lock hidden/node_modules/.package-lock \
    peers-overridden/package-lock hiding/overridden/package-lock gone-links/version-1 gone-links/version-2 gone-links/version-3; do
    checked 0 "$name.json"
done
cp -R cases/hidden "$work" && sed -i -f cases/hidden/broken.sed "$work/hidden/node_modules/.package-lock.json"
same 'a lock file in node_modules' 1 /dev/null cases/hidden/broken.expected /dev/null \
    $fields "$work/hidden/node_modules/.package-lock.json"
same 'a lock file in the current node_modules' 1 /dev/null cases/hidden/broken.expected /dev/null \
    sh -c 'cd "$1" && shift && exec "$@"' - "$work/hidden/node_modules" "$PWD/$check" --quiet --format tsv .package-lock.json
for name in missing version-1 archives-1 left-alone/package-lock peers-conflict/package-lock peers-overridden/package-lock hiding/overridden/package-lock overrides-1/package-lock from-npm/package-lock canaries tags unread stale/package-lock; do
    checked 1 "$name.json" --strict
done
for name in nothing-wrong canaries-right; do checked 0 "$name.json" --strict; done
for name in cut-off another-file another-shape another-version; do checked 2 "$name.json"; done

# ---- the output of cargo metadata

for name in workspace one-platform several-targets other-names canaries-right; do checked 0 "cargo/$name.json"; done
for name in workspace other-names canaries-right; do checked 0 "cargo/$name.json" --strict; done
for name in one-platform several-targets; do checked 1 "cargo/$name.json" --strict; done
checked 1 cargo/made.json
checked 1 cargo/made.json --strict
checked 1 cargo/canaries.json
for name in no-graph no-node no-package another-format; do checked 2 "cargo/$name.json"; done

# ---- Cargo.lock, yarn and pnpm

if python3 -c 'import tomllib' 2> /dev/null; then
    for name in right package empty removed replaced; do checked 0 "cargo-lock/$name/Cargo.lock"; done
    for name in wrong outside/workspace project root source no-source edges lost unreached beside patches not-replaced exchanged \
        features checksums conflicts two-names unreplaced; do
        checked 1 "cargo-lock/$name/Cargo.lock"
    done
    for name in alone no-member zero-path zero-pattern twice newer; do checked 2 "cargo-lock/$name/Cargo.lock"; done
    checked_as_named 1 toml-1.1
    checked_as_named 2 another-shape
    cp -R cases/cargo-lock/right "$work/right" && cp "$work/right/Cargo.lock" "$work/right/app"
    echo "check-lock-file: app/Cargo.lock: it isn't checked, since Cargo reads Cargo.lock" > "$work/note"
    same 'a Cargo.lock in a member' 2 /dev/null /dev/null "$work/note" \
        sh -c 'cd "$1" && exec "$2" app/Cargo.lock' - "$work/right" "$PWD/$check"
    printf '%s\n' 'app/Cargo.lock: left out, since Cargo reads Cargo.lock' \
        'check-lock-file: app: none of its lock files is checked' > "$work/note"
    same 'a member with a Cargo.lock' 2 /dev/null /dev/null "$work/note" \
        sh -c 'cd "$1" && exec "$2" app' - "$work/right" "$PWD/$check"
    printf 'a = {\n    b = 1, # c\n}\nd\n' > "$work/right/Cargo.toml"
    refused "check-lock-file: $work/right/Cargo.toml: it isn't TOML: Expected '=' after a key in a key/value pair (at line 4, column 2)" \
        /dev/null $check "$work/right/Cargo.lock"
    printf '[package]\nname = "a"\n[features]\nx = ["dep:y"]\n' > "$work/right/Cargo.toml"
    refused "check-lock-file: $work/right/Cargo.toml: it isn't a valid Cargo.toml: features: x: dep:y isn't there" \
        /dev/null $check "$work/right/Cargo.lock"
    # refused_by_cargo WHY PACKAGE REST: checks a Cargo.toml that Cargo rejects, too.
    refused_by_cargo() {
        printf '[package]\nname = "a"\nversion = "0.1.0"\n%b\n%b\n' "$2" "$3" > "$work/right/Cargo.toml"
        refused "check-lock-file: $work/right/Cargo.toml: it isn't a valid Cargo.toml: $1" /dev/null $check "$work/right/Cargo.lock"
    }
    refused_by_cargo 'edition 2099 is unknown' 'edition = "2099"' ''
    refused_by_cargo 'resolver 9 is unknown' 'resolver = "9"' ''
    refused_by_cargo 'links is there without a build script' 'links = "z"' ''
    refused_by_cargo 'it has a workspace and names another one' 'workspace = ".."' '[workspace]'
    refused_by_cargo 'replace and patch are both there' '' '[replace]\n[patch.crates-io]'
    refused_by_cargo 'target cfg(foo is invalid' '' '[target."cfg(foo".dependencies]'
    refused_by_cargo 'target cfg(not(a, b)) is invalid' '' '[target."cfg(not(a, b))".dependencies]'
    refused_by_cargo 'target foo bar is invalid' '' '[target."foo bar".dependencies]'
    refused_by_cargo 'features: x requires itself' '' '[features]\nx = ["x"]'
    refused_by_cargo 'features: x/y has a slash or dep:' '' '[features]\n"x/y" = []'
    refused_by_cargo "features: x: y/z isn't there" '' '[features]\nx = ["y/z"]'
    refused_by_cargo 'dev-dependencies: b: it is for development and optional' '' '[dev-dependencies]\nb = { version = "1", optional = true }'
    refused_dependency() { refused_by_cargo "dependencies: b: $1" '' "[dependencies]\nb = { $2 }"; }
    refused_dependency 'it has neither a version nor a place' ''
    refused_dependency 'git and path are both there' 'path = "b", git = "https://example.org/b"'
    refused_dependency 'git and registry are both there' 'git = "https://example.org/b", registry = "r"'
    refused_dependency 'branch and tag are both there' 'git = "https://example.org/b", branch = "b", tag = "t"'
    refused_dependency 'branch is there without git' 'version = "1", branch = "b"'
    refused_dependency 'feature x/y has a slash or dep:' 'version = "1", features = ["x/y"]'
    printf '[workspace]\n[dependencies]\n' > "$work/right/Cargo.toml"
    refused "check-lock-file: $work/right/Cargo.toml: it isn't a valid Cargo.toml: dependencies is there without a package" \
        /dev/null $check "$work/right/Cargo.lock"
    for line in 'name = "1a"' 'name = "a b"'; do
        printf '[package]\n%s\n' "$line" > "$work/right/Cargo.toml"
        refused "check-lock-file: $work/right/Cargo.toml: it isn't a valid Cargo.toml: $(echo "$line" | cut -d '"' -f 2) isn't a valid name of a package" \
            /dev/null $check "$work/right/Cargo.lock"
    done
    cp -R cases/cargo-lock/wrong "$work/[a]*"
    same 'a directory whose name is a pattern' 1 /dev/null cases/cargo-lock/wrong/Cargo.expected /dev/null \
        $fields "$work/[a]*/Cargo.lock"
    sed -i '1,/^$/d' "$work/[a]*/Cargo.lock"
    same 'an old Cargo.lock, without a head' 1 /dev/null cases/cargo-lock/wrong/Cargo.expected /dev/null \
        $fields "$work/[a]*/Cargo.lock"
    cp -R cases/cargo-lock/root "$work/root"
    sed -i '/^$/,$d' "$work/root/Cargo.lock"
    echo '0.3		app 0.1.0 requires below	missing' > "$work/lines"
    same 'a Cargo.lock of a root alone' 1 /dev/null "$work/lines" /dev/null $fields "$work/root/Cargo.lock"
else
    echo 'Cargo.lock: skipped, since python3 is older than 3.11'
fi
checked 0 yarn/classic-right/yarn.lock
checked 1 yarn/classic/yarn.lock
checked 1 yarn/classic/yarn.lock --strict
checked 0 yarn/berry-right/yarn.lock
checked 1 yarn/berry/yarn.lock
checked 1 yarn/berry/yarn.lock --strict
for name in resolution resolutions contradicted keys stale stale-berry workspaces-berry gone; do checked 1 "yarn/$name/yarn.lock"; done
checked 0 yarn/asked/yarn.lock
checked 1 yarn/asked/yarn.lock --strict
for name in cut-off one-name not-required; do checked 2 "yarn/$name/yarn.lock"; done
if python3 -c 'import yaml' 2> /dev/null; then
    for version in 5 6 9; do
        checked 0 "pnpm/right-$version.yaml"
        checked 1 "pnpm/wrong-$version.yaml"
    done
    for name in stale workspaces settings projects entries; do checked 1 "pnpm/$name/pnpm-lock.yaml"; done
    for name in peers entries-6 conflict; do checked 1 "pnpm/$name.yaml"; done
    checked 1 pnpm/conflict.yaml --strict
    for name in hooks settings-same; do checked 0 "pnpm/$name/pnpm-lock.yaml"; done
    checked 2 pnpm/repeated.yaml
    { cat cases/pnpm/repeated.yaml && printf 'x: &anchor {}\ny: *anchor\n'; } > "$work/lock"
    refused "check-lock-file: standard input: line 10: the key numbers is there twice" "$work/lock" $check -
    checked 1 pnpm/wrong-9.yaml --strict
    checked 1 pnpm/documents/pnpm-lock.yaml
    checked 2 pnpm/another-version.yaml
else
    echo 'pnpm: skipped, since PyYAML is not there'
fi
for name in right beside-same; do checked 0 "bun/$name/bun.lock"; done
for name in wrong stale beside; do checked 1 "bun/$name/bun.lock"; done
for name in right-4 right-5 beside-same; do checked 0 "deno/$name/deno.lock"; done
for name in wrong beside; do checked 1 "deno/$name/deno.lock"; done
for name in bun.lockb composer.lock deno.lock Gemfile.lock pdm.lock Pipfile.lock poetry.lock pylock.toml uv.lock; do
    refused "$(grep "^check-lock-file: cases/others/$name: " cases/others/told)" /dev/null $check "cases/others/$name"
done
for name in npm-shrinkwrap.json yarn.lock; do checked 0 "empty/$name"; done
for name in package-lock.json yarn.lock; do
    refused "check-lock-file: cases/conflicts/$name: merge conflict at line 6" /dev/null $check "cases/conflicts/$name"
done
if python3 -c 'import tomllib, yaml' 2> /dev/null; then
    for name in Cargo.lock pnpm-lock.yaml; do
        refused "check-lock-file: cases/conflicts/$name: merge conflict at line 6" /dev/null $check "cases/conflicts/$name"
    done
fi
{ echo '<<<<<<< HEAD' && cat cases/nothing-wrong.json; } > "$work/conflict"
refused 'check-lock-file: standard input: merge conflict at line 1' "$work/conflict" $check -
echo 'all' > "$work/unknown"
refused "check-lock-file: standard input: it isn't a lock file that is known" "$work/unknown" $check -

# ---- the smallest projects on which a tool and the checker might disagree

# can_judge NAME: returns whether Python has what a case of cases/judged needs.
can_judge() {
    case $1 in
    cargo-*) python3 -c 'import tomllib' 2> /dev/null ;;
    pnpm-*) python3 -c 'import yaml' 2> /dev/null ;;
    esac
}

# judged NAME STATUS: checks a copy of a case, in which the files named `.case` are without that.
judged() {
    copy=$work/judged/$1 lines=cases/judged/$1/expected
    [ -e "$lines" ] || lines=/dev/null
    mkdir -p "$work/judged" && cp -R "cases/judged/$1" "$copy"
    find "$copy" -name '*.case' | while read -r path; do mv "$path" "${path%.case}"; done
    same "judged/$1" "$2" /dev/null "$lines" "cases/judged/$1/told" \
        sh -c 'cd "$1" && exec "$2" --format tsv .' - "$copy" "$PWD/$check"
}
grep -v '^#' cases/judged/table | while read -r name verdict status; do
    [ -z "$name" ] || if can_judge "$name"; then
        judged "$name" "$status"
    else
        echo "judged/$name: skipped, since Python can't read its files"
    fi
done

# ---- files that are made from those of npm and Cargo, on standard input

sed -f cases/from-npm/broken.sed cases/from-npm/package-lock.json > "$work/lock"
same 'overrides of a named package.json' 1 "$work/lock" cases/from-npm/broken.expected /dev/null \
    $fields --package-json cases/from-npm/package.json -
same 'overrides of a named package.json, after =' 1 "$work/lock" cases/from-npm/broken.expected /dev/null \
    $fields --package-json=cases/from-npm/package.json -
printf '%s\n' '>1.2	1.0.0	node_modules/runner requires numbers' '^1.0.0	2.0.0	node_modules/runner requires router' |
    cat cases/from-npm/package-lock.expected - > "$work/lines"
same 'no overrides beside standard input' 1 cases/from-npm/package-lock.json "$work/lines" /dev/null \
    sh -c 'cd "$1" && shift && exec "$@" -' - cases/from-npm "$PWD/"$fields
same 'a package.json that was changed, named' 1 cases/stale/package-lock.json cases/stale/package-lock.expected \
    /dev/null $fields --package-json cases/stale/package.json -
echo '^3.0.0	2.0.0	the project requires removed' > "$work/lines"
same 'no package.json beside standard input' 1 cases/stale/package-lock.json "$work/lines" /dev/null \
    sh -c 'cd "$1" && shift && exec "$@" -' - cases/stale "$PWD/"$fields
same 'no peers' 1 cases/legacy-peers/package-lock.json cases/legacy-peers/package-lock.expected /dev/null $fields --no-peers -
sed -f cases/cargo/workspace-broken.sed cases/cargo/workspace.json > "$work/graph"
same 'a graph that is broken' 1 "$work/graph" cases/cargo/workspace-broken.expected /dev/null $fields -
for name in package-lock.json pnpm/wrong-9.yaml cargo/made.json; do
    [ "$name" = pnpm/wrong-9.yaml ] && ! python3 -c 'import yaml' 2> /dev/null && continue
    { printf '\357\273\277' && cat "cases/$name"; } > "$work/lock"
    same "a byte order mark before $name" 1 "$work/lock" "cases/${name%.*}.expected" /dev/null $fields -
done
version=$(printf '%05000d' 0 | tr 0 9).0.0
sed "s/\"version\": \"0.2.7\"/\"version\": \"$version\"/" cases/cargo/workspace.json > "$work/graph"
printf '%s\n' "^0.2	$version	app 0.1.0 requires plain-parts" "	$version	plain-parts	invalid-version" > "$work/lines"
same 'a number of 5,000 digits' 1 "$work/graph" "$work/lines" /dev/null $fields -

# ---- wrong usage, and what can't be read

good=cases/nothing-wrong.json told=check-lock-file:
nines=$(printf '%05000d' 0 | tr 0 9)
if python3 -c 'import tomllib' 2> /dev/null; then
    printf '[[package]]\na = %s\n' "$nines" > "$work/wrong"
    refused "$told standard input: it isn't TOML" "$work/wrong" $check -
fi
if python3 -c 'import yaml' 2> /dev/null; then
    for line in 'x: "\U00110000"' 'x: "\UFFFFFFFF"' "%YAML 1.$nines
---"; do
        printf '%s\nlockfileVersion: 9\n' "$line" > "$work/wrong"
        refused "$told standard input: it isn't YAML" "$work/wrong" $check -
    done
    python3 -c 'print("lockfileVersion: 9.0\nx: " + "[" * 5000 + "]" * 5000)' > "$work/wrong"
    refused "$told standard input: it isn't a valid lock file: it is nested too deep" "$work/wrong" $check -
    sed 's/^importers:/x: \&anchor {}\ny: *anchor\nimporters:/' cases/pnpm/wrong-9.yaml > "$work/lock"
    same 'a file of pnpm with an alias' 1 "$work/lock" cases/pnpm/wrong-9.expected /dev/null $fields -
fi
# What would take very long is rejected: a path, a key and nested lists that are too long, and a pipe.
python3 -c 'print("{\"lockfileVersion\": 3, \"packages\": {\"" + "/".join(["node_modules/a"] * 100000) + "\": {}}}")' > "$work/wrong"
refused "$told standard input: it isn't a valid lock file: a path in it has more than 4,096 characters" "$work/wrong" $check -
if python3 -c 'import tomllib' 2> /dev/null; then
    { printf '[[package]]\n[' && python3 -c 'print(".".join(["a"] * 100000) + "]")'; } > "$work/wrong"
    refused "$told standard input: it isn't TOML: a key has more than 1,000 parts" "$work/wrong" $check -
    mkdir "$work/long" && cp cases/cargo-lock/package/Cargo.lock "$work/long"
    python3 -c 'print("[package]\nname = \"a\"\n[target.\"cfg(" + "all(" * 4000 + "unix" + ")" * 4001 + "\".dependencies]")' > "$work/long/Cargo.toml"
    refused "$told $work/long/Cargo.toml: it isn't a valid Cargo.toml: a target has more than 100 lists" /dev/null $check "$work/long/Cargo.lock"
fi
mkdir "$work/waiting" && cp cases/nothing-wrong.json "$work/waiting/package-lock.json" && mkfifo "$work/waiting/package.json"
refused "$told $work/waiting/package.json: it can't be read: it is a pipe" /dev/null $check "$work/waiting/package-lock.json"
refused "$told nowhere: it can't be read: No such file or directory" /dev/null $check nowhere
refused "$told standard input: it isn't a lock file that is known" /dev/null $check -
for option in --npm --npm=yes --stric -s; do
    refused "$told unknown option: \"$option\"; see check-lock-file --help" /dev/null $check $good $option
done
refused "$told --strict is an option without a value, and \"yes\" is given; see check-lock-file --help" /dev/null $check $good --strict=yes
refused "$told --strict is given twice; see check-lock-file --help" /dev/null $check --strict $good --strict
refused "$told --strict: it can't be read: No such file or directory" /dev/null $check -- --strict
refused "$told --package-json has no value; see check-lock-file --help" /dev/null $check $good --package-json
refused "$told --package-json has no value; see check-lock-file --help" /dev/null $check --package-json= $good
refused "$told --package-json is given twice; see check-lock-file --help" /dev/null $check --package-json=a --package-json b $good
refused "$told two files are standard input; see check-lock-file --help" /dev/null $check --package-json - -
refused "$told nowhere: it can't be read: No such file or directory" /dev/null $check --package-json nowhere $good
for name in pnpm/right-9.yaml cargo-lock/right/Cargo.lock cargo/workspace.json; do
    refused "$told --package-json is for files of npm and yarn; see check-lock-file --help" /dev/null \
        $check --package-json cases/from-npm/package.json "cases/$name"
done
# refused_manifest WHY JSON: checks that a package.json is rejected.
refused_manifest() {
    echo "$2" > "$work/package.json"
    refused "$told standard input: it isn't a valid package.json: $1" "$work/package.json" $check --package-json - $good
}
refused_manifest "the file isn't an object" '[]'
refused_manifest "dependencies isn't an object" '{"dependencies": []}'
refused_manifest "devDependencies: a isn't a string" '{"devDependencies": {"a": 1}}'
refused_manifest "peerDependenciesMeta: a isn't an object" '{"peerDependenciesMeta": {"a": true}}'
refused_manifest 'overrides: a is null' '{"overrides": {"a": null}}'
refused_manifest "overrides: a: . isn't a string" '{"overrides": {"a": {".": 1}}}'
refused_manifest 'overrides:  names no package' '{"overrides": {"": "1.0.0"}}'
cp -R cases/workspaces "$work/workspaces" && echo '[]' > "$work/workspaces/packages/a/package.json"
refused "$told $work/workspaces/packages/a/package.json: it isn't a valid package.json: the file isn't an object" /dev/null \
    $check "$work/workspaces/package-lock.json"
refused_manifest 'overrides: a@next has no range after its name' '{"overrides": {"a@next": "1.0.0"}}'

echo '{"resolutions": {"numbers": 1}}' > "$work/package.json"
refused "$told standard input: it isn't a valid package.json: resolutions: numbers isn't a string" "$work/package.json" \
    $check --package-json - cases/yarn/classic/yarn.lock

# has_help PROGRAM: checks the help and the version, also without the library, and with an output
# that can't be written.
has_help() {
    "$1" --help > "$work/page"
    head -n 1 "$work/page" | grep -q "^usage: ${1##*/} "
    echo "${1##*/} $(cat ../VERSION)" > "$work/version"
    for library in "$SEMVER_PARSER_LIBRARY" /nowhere; do
        same "${1##*/} -h" 0 /dev/null "$work/page" /dev/null env SEMVER_PARSER_LIBRARY="$library" "$1" nowhere -h
        same "${1##*/} --version" 0 /dev/null "$work/version" /dev/null env SEMVER_PARSER_LIBRARY="$library" "$1" --version
    done
    echo "${1##*/}: the output can't be written: No space left on device" > "$work/no-output"
    same "${1##*/}, no output" 2 /dev/null /dev/null "$work/no-output" sh -c 'exec "$@" > /dev/full' - "$1" -h
}
has_help $check
has_help $compare
see='see compare-requirements --help'
refused "compare-requirements: without --git, OLD and NEW are needed, and none is given; $see" /dev/null $compare
refused "compare-requirements: without --git, OLD and NEW are needed, and 1 is given; $see" /dev/null $compare nowhere
refused "compare-requirements: without --git, OLD and NEW are needed, and 3 are given; $see" /dev/null $compare nowhere nowhere nowhere
refused "compare-requirements: --git REV needs a PATH, or a second REV and a PATH, and none is given; $see" /dev/null $compare --git HEAD
refused "compare-requirements: two files are standard input; $see" /dev/null $compare - -
refused "compare-requirements: --fail-on: \"new\" isn't lost, gained or any; $see" /dev/null $compare --fail-on new nowhere nowhere
same 'a reader that closes the pipe' 1 /dev/null /dev/null /dev/null sh -c '
    { status=0; "$@" || status=$?; echo "$status" > "$0"; } | :
    exit "$(cat "$0")"' "$work/status" $fields cases/package-lock.json

# Opening the pipe for writing waits until the program has opened it for reading.
cat > "$work/interrupt.py" <<'END'
import signal, subprocess, sys
signal.signal(signal.SIGINT, signal.default_int_handler)
program = subprocess.Popen(sys.argv[1:])
with open(sys.argv[2], "w"):
    program.send_signal(signal.SIGINT)
    sys.exit(program.wait() != -signal.SIGINT)
END
mkfifo "$work/pipe"
same 'an interrupt' 0 /dev/null /dev/null /dev/null python3 "$work/interrupt.py" $check "$work/pipe"
# without_library PROGRAM ARGUMENT..: without the library it ends as after any other error, also as
# pip installs it.
without_library() {
    entry=$(sed -n "s/^${1##*/} = \"\(.*\):\(.*\)\"$/from \1 import \2 as main/p" ../pyproject.toml)
    echo "${1##*/}: semver_parser needs its shared library, and found none that can be loaded. It looked for\
 /nowhere, which SEMVER_PARSER_LIBRARY names: cannot open shared object file: No such file or directory.\
 If the library is elsewhere, set SEMVER_PARSER_LIBRARY to its path." > "$work/told"
    same "${1##*/} without the library" 2 /dev/null /dev/null "$work/told" env SEMVER_PARSER_LIBRARY=/nowhere "$@"
    shift
    same "the same by pip" 2 /dev/null /dev/null "$work/told" \
        env SEMVER_PARSER_LIBRARY=/nowhere python3 -c "$entry; exit(main())" "$@"
}
without_library $check $good
without_library $compare cases/requirements/old.json cases/requirements/new.json
# A script without its modules.
for program in $check $compare; do
    cp "$program" "$work/${program##*/}"
    refused "${program##*/}: No module named 'semver_parser'" /dev/null python3 -S "$work/${program##*/}" -h
done
# Another package of this name that the user has installed.
installed=$(PYTHONUSERBASE=$work/user python3 -m site --user-site) || :
mkdir -p "$installed/semver_parser"
echo 'raise ImportError("another package")' > "$installed/semver_parser/__init__.py"
same 'another package of the name' 0 /dev/null /dev/null /dev/null env PYTHONUSERBASE="$work/user" $fields $good
same 'another package of the name, compare' 0 /dev/null /dev/null /dev/null \
    env PYTHONUSERBASE="$work/user" $compare cases/requirements/old.json cases/requirements/old.json

here=$PWD
. "$top/tests/parallel/checkers-output.sh"

# ---- requirements

# The examples at the top of the checkers' page, after the commands by which they run in a clone.
# Standard error is shown after standard output, as at a terminal.
sed '/^## /,$d' semver_parser/checks/README.md > "$work/examples"
{
    sed -n 's/^    \$ export /export /p' semver_parser/checks/README.md
    sed -n 's/^    \$ //p' "$work/examples"
} > "$work/commands"
[ "$(wc -l < "$work/commands")" = 4 ] || refuse 'README.md has other commands'
sed -n '/^    \$/d; s/^    //p' "$work/examples" > "$work/lines"
same "README.md's examples" 0 /dev/null "$work/lines" /dev/null \
    env -u SEMVER_PARSER_LIBRARY sh -c 'exec 2>&1; cd .. && . "$1"' - "$work/commands"

# compared STATUS NAME ARGUMENT..: compares requirements. The lines are in cases/requirements/NAME.
compared() {
    wanted=$1 lines=cases/requirements/$2
    shift 2
    same "$*" "$wanted" /dev/null "$lines" /dev/null $compare "$@"
}
folder=cases/requirements
compared 1 package.expected $folder/old.json $folder/new.json
compared 1 package.json.expected --json $folder/old.json $folder/new.json
for change in lost gained any; do compared 1 package.expected --fail-on $change $folder/old.json $folder/new.json; done
{ printf '\357\273\277' && cat $folder/old.json; } > "$work/marked"
compared 1 package.expected "$work/marked" $folder/new.json

# refused_as_manifest WHY FILE: checks that a file is rejected because it isn't a manifest.
refused_as_manifest() {
    refused "compare-requirements: $2: it isn't a ${1:+valid }package.json, pnpm-workspace.yaml or Cargo.toml$1" /dev/null \
        $compare "$2" "$2"
}

same 'one file' 0 /dev/null /dev/null /dev/null $compare $folder/old.json $folder/old.json
if python3 -c 'import tomllib' 2> /dev/null; then
    compared 1 cargo.expected $folder/old.toml $folder/new.toml
    refused "compare-requirements: one file is npm's and the other Cargo's; see compare-requirements --help" /dev/null \
        $compare $folder/old.json $folder/new.toml
    refused_as_manifest '' /dev/null
    refused_as_manifest '' ../pyproject.toml
    refused_as_manifest ": package isn't an object" cases/cargo-lock/right/Cargo.lock
    echo '[dependencies]' > "$work/lines"
    same 'only a table of dependencies' 0 /dev/null /dev/null /dev/null $compare "$work/lines" "$work/lines"
fi
refused_as_manifest ': it has lockfileVersion' cases/package-lock.json
refused_as_manifest ': it has workspace_members' cases/cargo/made.json
echo '{}' > "$work/package.json"
same 'an empty package.json' 0 /dev/null /dev/null /dev/null $compare "$work/package.json" "$work/package.json"
echo '{"dependencies": {"a": "^1.0.0"}, "overrides": {"b": "^1.0.0"}}' > "$work/package.json"
echo '{"peerDependencies": {"a": "^1.0.0"}, "resolutions": {"b": "^1.0.0"}}' > "$work/lines"
cat > "$work/changes" <<'END'
a (dependencies -> peerDependencies): ^1.0.0 -> ^1.0.0: the same versions
b (overrides): removed ^1.0.0
b (resolutions): added ^1.0.0
END
same 'what moved, and what did not' 1 /dev/null "$work/changes" /dev/null $compare "$work/package.json" "$work/lines"
echo '{"peerDependencies": {"a": "^1.0.0"}, "overrides": {"b": "^1.0.0"}}' > "$work/lines"
sed -n 1p "$work/changes" > "$work/moved"
same 'only a move' 1 /dev/null "$work/moved" /dev/null $compare "$work/package.json" "$work/lines"
same 'only a move, which loses nothing' 0 /dev/null "$work/moved" /dev/null $compare --fail-on lost "$work/package.json" "$work/lines"
# failing_on CHANGE STATUS OLD NEW: compares two ranges, of which only one contains the other.
failing_on() {
    for side in "one $3" "other $4"; do
        echo "{\"dependencies\": {\"a\": \"${side#* }\"}}" > "$work/${side%% *}.json"
    done
    status=0
    $compare --fail-on "$1" "$work/one.json" "$work/other.json" > "$work/output" || status=$?
    [ "$status" = "$2" ] || { cat "$work/output" && echo "--fail-on $1, $3 -> $4: status $status" && exit 1; }
    echo "--fail-on $1, $3 -> $4: passed"
}
failing_on lost 1 ^1.2.0 ^1.3.0
failing_on gained 0 ^1.2.0 ^1.3.0
failing_on lost 0 ^1.3.0 ^1.2.0
failing_on gained 1 ^1.3.0 ^1.2.0
failing_on any 1 ^1.3.0 ^1.2.0
failing_on lost 1 1.2.3-rc 1.2.3
failing_on gained 0 '1.2.3-rc || 1.2.3' 1.2.3
failing_on any 0 ^1.2.0 1.2.0\ -\ 1
git init -q "$work/tree"
in_tree() { git -C "$work/tree" -c user.name=a -c user.email=a@b "$@"; }
cp $folder/old.json "$work/tree/package.json" && in_tree add . && in_tree commit -qm old
{ printf '\357\273\277' && cat $folder/new.json; } > "$work/tree/package.json" && in_tree commit -qam new
compared 1 package.expected --git HEAD^ HEAD "$work/tree/package.json"
compared 1 package.expected --git HEAD^ "$work/tree/package.json"
mkdir "$work/tree/inner" && cp $folder/old.json "$work/tree/inner/package.json" && in_tree add . && in_tree commit -qm old
cp $folder/new.json "$work/tree/inner/package.json" && in_tree commit -qam new
in_tree rm -qr inner && in_tree commit -qm gone
compared 1 package.expected --git HEAD^^ HEAD^ "$work/tree/inner/package.json"
same 'no change' 0 /dev/null /dev/null /dev/null $compare --git HEAD "$work/tree/package.json"
refused "compare-requirements: $work/tree/package.json: git doesn't show it: there is no such revision" /dev/null \
    $compare --git nothing "$work/tree/package.json"
refused "compare-requirements: $work/tree/nowhere.json: both sides lack it" /dev/null $compare --git HEAD "$work/tree/nowhere.json"
refused "compare-requirements: HEAD..HEAD names two revisions, and HEAD is a third one; see compare-requirements --help" \
    /dev/null $compare --git HEAD..HEAD HEAD "$work/tree/package.json"

# Directories: two of them, one in two revisions, and one in a revision and in the work tree.
if python3 -c 'import tomllib, yaml' 2> /dev/null; then
    # below NAME STATUS ARGUMENT..: compares all manifests of cases/requirements/before and after.
    below() {
        name=$1 wanted=$2 status=0
        shift 2
        (cd "$work/tree" && exec "$here/$compare" "$@") > "$work/output" 2> "$work/errors" || status=$?
        sed "s:^$here/$folder/after/::" "$work/output" | diff -u $folder/directories.expected -
        diff -u /dev/null "$work/errors"
        [ "$status" = "$wanted" ] || exit 1
        echo "$name: passed"
    }
    below 'two directories' 1 "$here/$folder/before" "$here/$folder/after"
    in_tree rm -qrf . && cp -R $folder/before/. "$work/tree" && in_tree add -f . && in_tree commit -qm before
    in_tree rm -qrf . && cp -R $folder/after/. "$work/tree"
    mkdir -p "$work/tree/node_modules/part" && cp $folder/old.json "$work/tree/node_modules/part/package.json"
    below 'a directory in the work tree' 1 --git HEAD .
    in_tree add -f . && in_tree commit -qm after
    below 'a directory in two revisions' 1 --git HEAD^..HEAD .
    below 'a directory in two revisions, apart' 1 --git HEAD^ HEAD .
    grep ^rust $folder/directories.expected | sed "s:^:$work/tree/:" > "$work/lines"
    same 'a directory below the top' 1 /dev/null "$work/lines" /dev/null $compare --git HEAD^..HEAD "$work/tree/rust"
    echo 'react (dependencies): removed ^18.0.0' > "$work/lines"
    same 'a manifest that is gone' 1 /dev/null "$work/lines" /dev/null $compare --git HEAD^ "$work/tree/gone/package.json"
    same 'a manifest that is gone in a revision' 1 /dev/null "$work/lines" /dev/null $compare --git HEAD^..HEAD "$work/tree/gone/package.json"
    echo "$work/tree/gone/package.json: react (dependencies): removed ^18.0.0" > "$work/lines"
    same 'a directory that is gone' 1 /dev/null "$work/lines" /dev/null $compare --git HEAD^ "$work/tree/gone"
    echo 'react (devDependencies): added ^18.0.0' > "$work/lines"
    same 'a manifest that came' 1 /dev/null "$work/lines" /dev/null $compare --git HEAD^ "$work/tree/web/package.json"
    echo '{' > "$work/tree/web/package.json"
    echo "compare-requirements: web/package.json: it isn't JSON: line 2 column 1" > "$work/told"
    grep -v ^web $folder/directories.expected > "$work/lines"
    same 'one manifest that is refused' 2 /dev/null "$work/lines" "$work/told" \
        sh -c 'cd "$1" && exec "$2" --git HEAD^ .' - "$work/tree" "$here/$compare"
    below 'a directory in a range of revisions' 1 --git HEAD^.. .
    same 'the same in JSON' 0 /dev/null /dev/null /dev/null sh -c \
        '"$1" --json "$2/before" "$2/after" | python3 -c "import json, sys
found = json.load(sys.stdin)
assert found[1][\"file\"].endswith(\"after/package.json\"), found[1]
assert (found[1][\"table\"], found[1][\"new_table\"]) == (\"dependencies\", \"devDependencies\")"' - $compare $folder
fi
refused "compare-requirements: $folder is a directory, and $folder/old.json isn't; see compare-requirements --help" /dev/null \
    $compare $folder $folder/old.json
refused "compare-requirements: $folder is a directory, and standard input isn't; see compare-requirements --help" /dev/null \
    $compare - $folder
for pair in "nowhere $folder" "$folder nowhere"; do
    refused "compare-requirements: nowhere: it can't be read: No such file or directory" /dev/null $compare $pair
done
mkdir -p "$work/empty"
refused "compare-requirements: $work/empty: it is a directory without a manifest" /dev/null $compare "$work/empty" "$work/empty"
echo 'checkers: passed'
