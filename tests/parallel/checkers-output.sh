# The tests of check-lock-file that `checkers` runs besides those of its findings: what it prints,
# which files it takes, and what it leaves out. `check` is the program, and `here` is the directory
# python/.

has_toml() { python3 -c 'import tomllib' 2> /dev/null; }
has_yaml() { python3 -c 'import yaml' 2> /dev/null; }

# may_read FILE: returns whether Python has what the file needs. If not, prints that it is skipped.
may_read() {
    case $1 in
    *Cargo.lock) has_toml || { echo "$1: skipped, since python3 is older than 3.11" && return 1; } ;;
    *.yaml) has_yaml || { echo "$1: skipped, since PyYAML is not there" && return 1; } ;;
    esac
}

# Annotations have paths relative to the root of the repository.
export GITHUB_WORKSPACE="$PWD"

# ---- the formats

# for_people FILE [--strict]: compares the sentences for a file of cases/ with those next to it.
for_people() {
    ! may_read "$1" || same "$1, for people" 1 /dev/null "cases/${1%.*}.text" /dev/null $check --quiet ${2:+"$2"} "cases/$1"
}
for name in aliases archives names versions overrides/package-lock; do for_people "$name.json"; done
for name in unread cargo/made; do for_people "$name.json" --strict; done
for name in keys resolution; do for_people "yarn/$name/yarn.lock"; done
for_people pnpm/wrong-9.yaml --strict
for name in settings projects entries; do for_people "pnpm/$name/pnpm-lock.yaml"; done
for_people bun/beside/bun.lock
for name in no-source patches exchanged unreached checksums conflicts; do for_people "cargo-lock/$name/Cargo.lock"; done

for option in --json --format=json; do
    same "one object, by $option" 1 /dev/null cases/object.json /dev/null \
        $check --quiet $option cases/cargo/made.json cases/monorepo/web/yarn.lock
    python3 -m json.tool cases/object.json > /dev/null
done
same 'one object of what is refused' 2 /dev/null cases/object-refused.json cases/cut-off.told $check --json cases/cut-off.json

status=0
$check --quiet --json cases/yarn/resolution/yarn.lock > "$work/object" || status=$?
[ "$status" = 1 ] || exit 1
grep -A 6 '"another-version"' "$work/object" | grep '"range"' > "$work/lines"
printf '          "range": "%s",\n' 1.2.0 1.2.0 1.3.0 | diff -u - "$work/lines"
echo 'what else an entry has, in JSON: passed'

mkdir "$work/no-lock"
echo 'cases/empty/yarn.lock: gone # known' > "$work/known"
PYTHONPATH=. python3 "$top/tests/parallel/checkers-json.py" cases "$top/docs/manual/check-lock-file.1.md" "$work/known" "$work/no-lock" ||
    exit 1

# The output of --duplicates is in cases/duplicates/expected.
duplicated='cases/duplicates/npm/package-lock.json cases/duplicates/yarn/yarn.lock cases/bun/right/bun.lock
    cases/deno/right-4/deno.lock cases/pnpm/right-9.yaml'
if has_yaml; then
    same 'duplicates' 0 /dev/null cases/duplicates/expected /dev/null $check --quiet --duplicates $duplicated
fi
same 'duplicates, only on demand' 0 /dev/null /dev/null /dev/null $check --quiet ${duplicated% *}
at=cases/duplicates/npm/package-lock.json
sed -n "s|^$at: |$at::|p" cases/duplicates/expected | sed '1s/json::/json,line=12::/; s/^/::notice file=/' > "$work/lines"
same 'notices of duplicates' 0 /dev/null "$work/lines" /dev/null $check --quiet --duplicates --format github $at

# SARIF: what GitHub requires, and the same findings on the same lines as in annotations.
status=0
$check --quiet --format sarif --strict cases/monorepo cases/unread.json cases/cut-off.json "$work/no-lock" \
    > "$work/sarif" 2> "$work/errors" || status=$?
[ "$status" = 2 ] || exit 1
$check --quiet --format github --strict cases/monorepo cases/unread.json cases/cut-off.json "$work/no-lock" \
    > "$work/annotations" 2> "$work/errors" || :
python3 -c 'import json, sys
whole = json.load(open(sys.argv[1]))
assert whole["version"] == "2.1.0" and whole["$schema"].endswith("sarif-2.1.0.json"), whole
[run] = whole["runs"]
driver = run["tool"]["driver"]
rules = [it["id"] for it in driver["rules"]]
for rule in driver["rules"]:
    assert all(rule[it]["text"] for it in ("shortDescription", "fullDescription", "help")), rule
assert driver["name"] == "check-lock-file" and run["invocations"] == [{"executionSuccessful": False}], run
for it in run["results"]:
    assert rules[it["ruleIndex"]] == it["ruleId"] and it["partialFingerprints"]["primaryLocationLineHash"], it
    is_note = it["ruleId"] in ("not-checked", "not-required")
    assert it["level"] == ("note" if is_note else "error"), it
    [location] = it["locations"]
    place = location["physicalLocation"]
    line = place["region"]["startLine"]
    at = "" if line == 1 else f",line={line}"
    file, text = place["artifactLocation"]["uri"], it["message"]["text"].replace("%", "%25")
    print(f"::error file={file}{at}::{text}")' "$work/sarif" > "$work/lines"
sed 's/,line=1::/::/' "$work/annotations" | diff -u - "$work/lines"
grep -q '"not-checked"' "$work/sarif" && grep -q '"refused"' "$work/sarif"
echo 'SARIF: passed'
echo 'bad%20name%25.json' > "$work/lines"
cp cases/cut-off.json "$work/bad name%.json"
(cd "$work" && "$here/$check" --format sarif 'bad name%.json' 2> "$work/errors" || :) | sed -n 's/.*"uri": "\(.*\)"/\1/p' | diff -u "$work/lines" -
echo 'the address of a file in SARIF: passed'

# annotated FILE: compares the annotations for a file of cases/, each on the line where its entry
# begins.
annotated() {
    status=0
    $check --quiet --format github "cases/$1" > "$work/annotations" || status=$?
    [ "$status" = 1 ] || exit 1
    diff -u "cases/annotations/${1##*/}" "$work/annotations"
    echo "annotations of $1: passed"
}
for name in version-1.json aliases.json yarn/keys/yarn.lock pnpm/wrong-6.yaml pnpm/settings/pnpm-lock.yaml cargo-lock/wrong/Cargo.lock; do
    ! may_read "$name" || annotated "$name"
done
if has_yaml; then
    printf '::error file=cases/pnpm/catalogs/%s::react %s required by %s\n' \
        pnpm-workspace.yaml,line=4 '17.0.1 does not satisfy ^18.0.0,' catalog:default \
        pnpm-workspace.yaml,line=7 '18.0.1 does not satisfy ^17.0.0,' catalog:old \
        package.json,line=3 '17.0.1 does not satisfy ^18.0.0,' 'the project' > "$work/lines"
    same 'annotations of catalogs' 1 /dev/null "$work/lines" /dev/null $check --quiet --format github cases/pnpm/catalogs
fi
# A key whose colon is on another line, and a key that is there twice, so its line isn't known.
printf '%s\n' '{"lockfileVersion": 3, "packages": {"": {"dependencies": {"a": "2", "b": "2"}},' '"node_modules/a"' ':' \
    '{"version": "1.0.0"},' '"node_modules/b": {},' '"node_modules/b": {"version": "1.0.0"}}}' > "$work/lock"
printf '::error file=standard input%s::%s 1.0.0 does not satisfy 2, required by the project\n' ',line=2' a '' b > "$work/lines"
same 'annotations of other lines' 1 "$work/lock" "$work/lines" /dev/null $check --quiet --format github -
cp cases/monorepo/web/package.json cases/monorepo/web/yarn.lock "$work"
mkdir "$work/a,b:c%d" && mv "$work/package.json" "$work/yarn.lock" "$work/a,b:c%d"
echo '::error file=a%2Cb%3Ac%25d/package.json,line=1::react ^18.2.0 is missing, required by the project' > "$work/lines"
same "GitHub's escapes" 1 /dev/null "$work/lines" /dev/null sh -c 'cd "$1" && exec "$2" --quiet --format github a,*' - "$work" "$here/$check"
echo "::error file=cases/cut-off.json,line=1::it isn't JSON: line 1 column 37" > "$work/lines"
same 'the annotation of an error' 2 /dev/null "$work/lines" cases/cut-off.told $check --format github cases/cut-off.json

# The annotation of a file that is rejected is at the line that its reader names, in each notation.
rejected() {
    (cd "$work" && "$here/$check" --quiet --format github "$1" 2> "$work/errors") > "$work/annotations" || :
    grep -q "^::error file=$1,line=$2::.*line $2" "$work/annotations" || { cat "$work/annotations" && exit 1; }
    echo "the line of the rejected $1: passed"
}
printf '{\n"lockfileVersion": 3,\n}' > "$work/package-lock.json"
rejected package-lock.json 3
printf '{\n<<<<<<< ours\n}' > "$work/npm-shrinkwrap.json"
rejected npm-shrinkwrap.json 2
printf '{\n"lockfileVersion": 1,\n"\377": 1}' > "$work/bun.lock"
rejected bun.lock 3
printf '# yarn lockfile v1\n\nnumbers@^1:\n  version "1.0.0\n' > "$work/yarn.lock"
rejected yarn.lock 4
if has_toml; then
    printf '[package]\nname = "app"\n' > "$work/Cargo.toml"
    printf 'version = 4\n\n[[package]]\nname = app\n' > "$work/Cargo.lock"
    rejected Cargo.lock 4
fi
if has_yaml; then
    printf "lockfileVersion: '9.0'\npackages: {}\npackages: {}\n" > "$work/pnpm-lock.yaml"
    rejected pnpm-lock.yaml 3
    printf "lockfileVersion: '9.0'\npackages: }\n" > "$work/pnpm-lock.yaml"
    rejected pnpm-lock.yaml 2
fi

# Below the root of a repository, and with a root that GitHub didn't name.
mkdir "$work/rooted" && git init -q "$work/rooted" && cp -R cases/monorepo/web "$work/rooted"
echo '::error file=web/package.json,line=1::react ^18.2.0 is missing, required by the project' > "$work/lines"
for variable in GITHUB_WORKSPACE= "GITHUB_WORKSPACE=$work/rooted" "GITHUB_WORKSPACE=$here"; do
    same "paths from the root, $variable" 1 /dev/null "$work/lines" /dev/null \
        sh -c 'cd "$1" && exec env "$2" "$3" --quiet --format github ../web/yarn.lock' - "$work/rooted/web" "$variable" "$here/$check"
done
(cd "$work/rooted/web" && env GITHUB_WORKSPACE= "$here/$check" --quiet --format sarif yarn.lock || :) | grep -q '"uri": "web/package.json"'

# ---- paths, repairs and checksums

# why STATUS FILE PATH..: compares the paths that --why prints below the findings of a file of
# cases/.
why() {
    wanted=$1 file=$2
    shift 2
    may_read "$file" || return 0
    printf '  path: %s\n' "$@" > "$work/lines"
    status=0
    $check --quiet --why "cases/$file" > "$work/output" || status=$?
    [ "$status" = "$wanted" ] && grep '^  path: ' "$work/output" | sed 's/ ([^ ]*, line [0-9]*)$//' | diff -u "$work/lines" -
    $check --quiet "cases/$file" > "$work/lines" || :
    grep -v '^  path: ' "$work/output" | diff -u "$work/lines" -
    echo "paths to the findings of $file: passed"
}
why 1 monorepo/package-lock.json 'the project > lodash' 'packages/b > a'
why 1 yarn/stale/yarn.lock 'the project > perhaps' 'the project > any-release' 'the project > linked' 'the project > num' 'the project > replaced' 'the project > tool' \
    'packages/a > right' 'the project'
why 1 pnpm/stale/pnpm-lock.yaml 'the project > num' 'the project > perhaps' 'the project > git' 'the project > tool' 'packages/a > right' \
    'the project > right 1.4.0 > missing'
why 1 cargo-lock/root/Cargo.lock 'app 0.1.0 > below'
printf '%s\n' 'react ^18.2.0 is missing, required by the project' \
    '  path: the project > react (cases/monorepo/web/package.json, line 1)' > "$work/lines"
same 'where a manifest states a requirement' 1 /dev/null "$work/lines" /dev/null $check --quiet --why cases/monorepo/web/yarn.lock
$check --quiet --json --why cases/monorepo/package-lock.json > "$work/object" || :
grep -A 3 '"path": \[' "$work/object" | tr -d ' \n' > "$work/output"
printf '"path":["theproject","lodash"],--"path":["packages/b","a"],' | diff -u - "$work/output"
echo '::error file=cases/monorepo/web/package.json,line=1::react ^18.2.0 is missing, required by the project%0A  path: the project > react (cases/monorepo/web/package.json, line 1)' \
    > "$work/lines"
same 'a path in an annotation' 1 /dev/null "$work/lines" /dev/null $check --quiet --why --format github cases/monorepo/web/yarn.lock

# repaired FILE COMMAND: compares the line that says how to repair a file of cases/.
repaired() {
    may_read "$1" || return 0
    folder=cases/$(dirname "$1")
    $check "cases/$1" 2>&1 > "$work/output" | grep '^to repair' > "$work/errors" || :
    echo "to repair cases/$1, run $2 in $folder" | diff -u - "$work/errors"
    echo "how to repair $1: passed"
}
repaired stale/package-lock.json 'npm install'
repaired hiding/older/package-lock.json 'npm install'
repaired hiding/another-above/package-lock.json 'npm install'
# advised FILE PACKAGES ADVICE..: compares the lines that say what to change to repair a file of
# cases/, each with the packages that it is for, or none.
advised() {
    file=$1
    shift
    $check "cases/$file" 2>&1 > "$work/output" | grep '^to repair' > "$work/errors" || :
    for _ in "$@"; do
        [ "$#" = 0 ] || { echo "to repair ${1:+$1 in }cases/$file, $2" && shift 2; }
    done | diff -u - "$work/errors"
    echo "what to change for $file: passed"
}
# untried FILE TOOL COMMAND: compares the line for a file of a tool whose command wasn't run.
untried() {
    ! may_read "$1" || advised "$1" '' "have $2 write it anew; $3 may do that, but was not tried"
}
advised monorepo/package-lock.json a 'change the version in the manifest, or the requirement'
advised overrides-conflict/package-lock.json 'by-range, differs and workspace' 'make the override and the requirement agree'
advised hiding/newer/package-lock.json 'ada and @of/ada' \
    'remove the lock file and node_modules, and have npm write a new lock file'
advised peers-conflict/package-lock.json frame \
    'make the requirement and the peer dependency agree, or set legacy-peer-deps=true in .npmrc'
! has_toml || advised cargo-lock/conflicts/Cargo.lock 'b, c and a' 'correct the manifests: no lock file is right for them'
! has_toml || advised cargo-lock/checksums/Cargo.lock 'low, malformed and none' \
    'remove the checksum from the lock file, and have Cargo write it anew'
repaired monorepo/web/yarn.lock 'yarn install'
advised yarn/stale/yarn.lock replaced 'make the resolution and the requirement agree' \
    app 'correct the manifests: no lock file is right for them'
advised yarn/classic/yarn.lock 'canary, odd, wrongly-replaced and 2 others' 'run yarn install in cases/yarn/classic' \
    'texts and never' 'remove the entry from the lock file, and have the tool write it anew' odd 'correct the version'
advised yarn/contradicted/yarn.lock num 'make the resolution and the requirement agree'
advised yarn/gone/yarn.lock gone 'put the directory there, or remove what requires it'
untried yarn/stale-berry/yarn.lock yarn 'yarn install'
untried pnpm/stale/pnpm-lock.yaml pnpm 'pnpm install'
untried bun/beside/bun.lock Bun 'bun install'
untried deno/beside/deno.lock Deno 'deno install'
repaired cargo-lock/no-source/Cargo.lock 'cargo update --workspace'
echo 'checked 1 requirement and 1 package in Cargo.lock (Cargo)
to repair Cargo.lock, run cargo update --workspace' > "$work/told"
echo 'itoa 1.0.4 does not satisfy 1.0.10, required by app 0.1.0' > "$work/lines"
! has_toml || same 'how to repair a file here' 1 /dev/null "$work/lines" "$work/told" \
    sh -c 'cd cases/monorepo/rust && exec "$1" Cargo.lock' - "$here/$check"
for name in cargo/made.json nothing-wrong.json; do
    ! $check cases/$name 2>&1 > /dev/null | grep '^to repair' || exit 1
done
$check cases/monorepo cases/cut-off.json 2>&1 > /dev/null | tail -n 1 > "$work/output" || :
echo 'total: 4 requirements and 2 packages in 3 files; 1 not reached; 4 findings; 1 error' | diff -u - "$work/output"
! $check --quiet cases/monorepo 2>&1 > /dev/null | grep . || exit 1
echo 'sums: passed'

# ---- bytes and characters

# in_each_form TOLD FILE [LINE]: checks a file that is rejected with this message, in each format.
in_each_form() {
    echo "check-lock-file: $2: $1" > "$work/told"
    for form in text tsv json github sarif; do
        status=0
        $check --format $form "$2" > "$work/output" 2> "$work/errors" || status=$?
        [ "$status" = 2 ] && diff -u "$work/told" "$work/errors"
        case $form in
        text | tsv) diff -u /dev/null "$work/output" ;;
        json) grep -qxF "      \"error\": \"$1\"," "$work/output" ;;
        github) echo "::error file=$2${3:+,line=$3}::$1" | diff -u - "$work/output" ;;
        sarif) grep -qF "\"text\": \"$1\"" "$work/output" ;;
        esac
    done
    echo "$1, in each form: passed"
}
for encoding in UTF-16 UTF-16LE UTF-16BE; do
    iconv -t "$encoding" cases/nothing-wrong.json > "$work/encoded"
    in_each_form 'it is in UTF-16, not in UTF-8' "$work/encoded"
done
printf '\n{"lockfileVersion": 3, "packages": {"node_modules/\200": {"version": "1.0.0"}}}' > "$work/encoded"
in_each_form "it isn't UTF-8: line 2" "$work/encoded" 2
printf '# yarn lockfile v1\n\n"a\377@1":\n  version "1.0.0"\n' > "$work/encoded"
in_each_form "it isn't UTF-8: line 3" "$work/encoded" 3

# A version that looks like a merge conflict: the status is the same in each format.
if has_toml; then
    cp -R cases/monorepo/rust "$work/like-a-conflict"
    sed -i 's/"1.0.4"/"<<<<<<< 1.0.4"/' "$work/like-a-conflict/Cargo.lock"
    for form in text tsv json github sarif; do
        status=0
        $check --quiet --format $form "$work/like-a-conflict/Cargo.lock" > "$work/output" 2> "$work/errors" || status=$?
        [ "$status" = 1 ] && diff /dev/null "$work/errors" && grep -q '<<<<<<< 1.0.4' "$work/output"
    done
    echo 'a version like a conflict, in each form: passed'
fi

# Characters that a terminal would interpret, in a lock file, in its name, and in known findings.
mkdir "$work/controls"
printf '{"lockfileVersion": 3, "packages": {"": {"dependencies": {"a\302\233\177": "1\342\200\256", "\\u001b[2J": "\342\200\250"}}}}' \
    > "$work/controls/a$(printf '\302\233')"
echo "b$(printf '\342\201\246') # known" > "$work/controls/known"
for form in text tsv json github sarif; do
    status=0
    (cd "$work/controls" && "$here/$check" --format $form --allow known a*) > "$work/output" 2> "$work/errors" || status=$?
    [ "$status" = 1 ] || exit 1
    LC_ALL=C grep -c "$(printf '[\001-\010\013-\037\177-\377]')" "$work/output" "$work/errors" | grep -v ':0$' && exit 1
    grep -qF 'u009b' "$work/output" && grep -qF 'u202e' "$work/output" && grep -qF 'u2066' "$work/output"
done
echo 'control characters: passed'

# ---- a terminal

cat > "$work/terminal.py" <<'END'
import os, pty, sys
sys.exit(os.waitstatus_to_exitcode(pty.spawn(sys.argv[1:])))
END
# at_terminal NAME LINES ARGUMENT..: compares the program's lines on a terminal, where each ends
# with a carriage return, too.
at_terminal() {
    name=$1 lines=$2
    shift 2
    env -u NO_COLOR TERM=xterm "$@" > "$work/output" < /dev/null || :
    tr -d '\r' < "$work/output" | diff -u "$lines" -
    echo "$name: passed"
}
terminal="python3 $work/terminal.py $check --quiet"
printf '\033[1m%s\033[0m \033[31m%s\033[0m does not satisfy \033[32m%s\033[0m, required by %s\n' \
    lodash 4.17.20 '^4.17.21' 'the project' a 2.0.0 '^1.0.0' packages/b > "$work/colored"
$check --quiet cases/monorepo/package-lock.json > "$work/plain" || :
at_terminal 'colors' "$work/colored" $terminal cases/monorepo/package-lock.json
at_terminal 'NO_COLOR' "$work/plain" env NO_COLOR=1 $terminal cases/monorepo/package-lock.json
at_terminal 'an empty NO_COLOR' "$work/colored" env NO_COLOR= $terminal cases/monorepo/package-lock.json
at_terminal 'a dumb terminal' "$work/plain" env TERM=dumb $terminal cases/monorepo/package-lock.json
! grep "$(printf '\033')" "$work/plain" || exit 1
at_terminal '--color never' "$work/plain" $terminal --color never cases/monorepo/package-lock.json
at_terminal '--color auto' "$work/plain" env NO_COLOR=1 $terminal --color=auto cases/monorepo/package-lock.json
same '--color always' 1 /dev/null "$work/colored" /dev/null env NO_COLOR=1 $check --quiet --color always cases/monorepo/package-lock.json
refused 'check-lock-file: unknown color: "red" isn'"'"'t auto, always or never; see check-lock-file --help' /dev/null \
    $check --color red cases/missing.json

# A pipe whose content comes after more than a second.
mkfifo "$work/slow"
{ sleep 2 && cat cases/nothing-wrong.json; } > "$work/slow" &
printf '\033[Kchecking 1 of 2: %s\033[Kchecking 2 of 2: %s\033[K' "$work/slow" cases/nothing-wrong.json > "$work/progress"
at_terminal 'progress' "$work/progress" $terminal cases/nothing-wrong.json "$work/slow"
wait $!
{ sleep 2 && cat cases/nothing-wrong.json; } > "$work/slow" &
same 'no progress without a terminal' 0 /dev/null /dev/null /dev/null $check --quiet cases/nothing-wrong.json "$work/slow"
wait $!

# ---- how much is checked

for name in canaries.json aliases.json unread.json stale/package-lock.json workspaces/package-lock.json \
    yarn/classic-right/yarn.lock yarn/stale-berry/yarn.lock; do
    $check "cases/$name" 2>&1 > /dev/null || :
done > "$work/closing"
diff -u cases/closing "$work/closing"
echo 'closing lines: passed'

# unchecked TOLD FILE LINES REST: nothing in a file is checked. With --strict this is an error;
# without it, REST is the rest of the closing line.
unchecked() {
    echo "check-lock-file: cases/unchecked/$2: nothing was checked of $1" > "$work/told"
    for option in --strict '--strict --quiet'; do
        same "nothing is checked in $2 $option" 2 /dev/null "$3" "$work/told" $check $option "cases/unchecked/$2"
    done
    echo "checked 0 requirements and $4" > "$work/told"
    same "nothing is checked in $2" 0 /dev/null /dev/null "$work/told" $check "cases/unchecked/$2"
}
printf '%s 1.0.0 is not checked against %s (%s), required by the project\n' part user/part git tool latest tag > "$work/unchecked"
unchecked '2 requirements and 2 packages (npm); 2 not checked: 1 git, 1 tag' package-lock.json "$work/unchecked" \
    '2 packages in cases/unchecked/package-lock.json (npm); 2 not checked: 1 git, 1 tag'
echo "checked 1 requirement and 0 packages in cases/unchecked/paths/package-lock.json (npm)" > "$work/told"
same 'only paths' 0 /dev/null /dev/null "$work/told" $check cases/unchecked/paths/package-lock.json
$check cases/unchecked/package-lock.json cases/unchecked/paths 2>&1 | tail -n 1 > "$work/output"
echo 'total: 1 requirement and 2 packages in 2 files; 2 not checked; 0 findings' | diff -u - "$work/output"
unchecked '0 requirements and 1 package (npm)' npm-shrinkwrap.json /dev/null '1 package in cases/unchecked/npm-shrinkwrap.json (npm)'
echo 'check-lock-file: cases/unchecked/npm-shrinkwrap.json: nothing was checked of 0 requirements and 1 package (npm)' > "$work/told"
same 'nothing is checked, in JSON' 2 /dev/null cases/object-unchecked.json "$work/told" $check --strict --json cases/unchecked/npm-shrinkwrap.json
echo "::error file=cases/unchecked/npm-shrinkwrap.json::nothing was checked of 0 requirements and 1 package (npm)" > "$work/lines"
same 'nothing is checked, an annotation' 2 /dev/null "$work/lines" "$work/told" $check --strict --format github cases/unchecked/npm-shrinkwrap.json
sed 's/"latest"/"^1.0.0"/' cases/unchecked/package-lock.json > "$work/lock"
echo 'checked 1 requirement and 2 packages in standard input (npm); 1 not checked: 1 git' > "$work/told"
same 'one requirement is checked' 0 "$work/lock" /dev/null "$work/told" $check -

sed 's/"dependencies"/"devDependencies"/' cases/unchecked/package-lock.json > "$work/lock"
echo 'checked 0 requirements and 2 packages in standard input (npm); 2 left out' > "$work/told"
same 'all is left out' 0 "$work/lock" /dev/null "$work/told" $check --no-dev -

# ---- files and directories

# in_repository STATUS LINES ERRORS ARGUMENT..: runs the program in a repository that is made here.
in_repository() {
    status=$1 lines=$2 errors=$3
    shift 3
    same "in a repository: $*" "$status" /dev/null "$lines" "$errors" \
        sh -c 'cd "$1" && shift && exec "$@"' - "$work/repository" "$here/$check" --quiet "$@"
}
mkdir "$work/repository"
cp -R cases/monorepo/. "$work/repository"
(
    cd "$work/repository"
    mkdir -p node_modules/part rust/target new ignored empty
    for folder in node_modules/part rust/target ignored; do cp web/yarn.lock web/package.json $folder; done
    cp package.json package-lock.json new && rm web/yarn.lock && cp "$here/cases/others/bun.lockb" .
)
cat > "$work/walked" <<'END'
ignored/yarn.lock: react ^18.2.0 is missing, required by the project
new/package-lock.json: lodash 4.17.20 does not satisfy ^4.17.21, required by the project
package-lock.json: lodash 4.17.20 does not satisfy ^4.17.21, required by the project
package-lock.json: a 2.0.0 does not satisfy ^1.0.0, required by packages/b
rust/Cargo.lock: itoa 1.0.4 does not satisfy 1.0.10, required by app 0.1.0
END
grep -v '^ignored' "$work/walked" > "$work/listed"
echo 'check-lock-file: bun.lockb: bun.lockb is binary; run bun install --save-text-lockfile' > "$work/told"
if has_toml; then
    in_repository 2 "$work/walked" "$work/told"
    git init -q "$work/repository"
    echo ignored > "$work/repository/.gitignore"
    git -C "$work/repository" add . && git -C "$work/repository" rm -q --cached rust/Cargo.lock
    in_repository 2 "$work/listed" "$work/told"
    grep '^rust' "$work/listed" > "$work/lines"
    in_repository 1 "$work/lines" /dev/null rust
    cat > "$work/told" <<'END'
check-lock-file: nowhere: it can't be read: No such file or directory
check-lock-file: empty: it is a directory without a lock file
END
    grep '^package\|^rust' "$work/listed" > "$work/lines"
    in_repository 2 "$work/lines" "$work/told" rust/Cargo.lock empty nowhere package-lock.json ./package-lock.json rust
    printf '%s\t%s\t%s\t%s\n' package-lock.json '^4.17.21' 4.17.20 'the project requires lodash' \
        package-lock.json '^1.0.0' 2.0.0 'packages/b requires a' \
        rust/Cargo.lock 1.0.10 1.0.4 'app 0.1.0 requires itoa' > "$work/fields"
    in_repository 1 "$work/fields" /dev/null --format tsv rust package-lock.json
fi
# git that fails to list files, and directories that can't be read. All capabilities of root are
# dropped, since root could read them.
mkdir -p "$work/refused/shut" && cp cases/monorepo/package-lock.json cases/monorepo/package.json "$work/refused"
chmod 0 "$work/refused/shut"
unprivileged=
[ "$(id -u)" != 0 ] || unprivileged='setpriv --bounding-set=-all --inh-caps=-all'
# in_refused TOLD COMMAND..: runs a command there, which has to print this error.
in_refused() {
    echo "$1" > "$work/told"
    shift
    same "refused: $*" 2 /dev/null /dev/null "$work/told" sh -c 'cd "$1" && shift && exec "$@"' - "$work/refused" "$@"
}
in_refused "check-lock-file: shut: it can't be read: Permission denied" $unprivileged "$here/$check"
in_refused "check-lock-file: shut: it can't be read: Permission denied" $unprivileged "$here/$check" shut
mkdir -p "$work/refused/yarn/shut" && echo '{"workspaces": ["shut"]}' > "$work/refused/yarn/package.json"
echo '# yarn lockfile v1' > "$work/refused/yarn/yarn.lock" && chmod 0 "$work/refused/yarn/shut"
in_refused "check-lock-file: yarn/shut/package.json: it can't be read: Permission denied" $unprivileged "$here/$check" yarn/yarn.lock
chmod 700 "$work/refused/yarn/shut" && rm -r "$work/refused/yarn"
git init -q "$work/refused"
in_refused "check-lock-file: shut: it can't be read: Permission denied" $unprivileged "$here/$check"
in_refused "check-lock-file: .: git doesn't list its files: fatal: detected dubious ownership in repository at\
 '$(cd "$work/refused" && pwd -P)' To add an exception for this directory, call: git config --global --add safe.directory\
 $(cd "$work/refused" && pwd -P)" env GIT_TEST_ASSUME_DIFFERENT_OWNER=1 "$here/$check"
rm -r "$work/refused/.git" && echo 'gitdir: nowhere' > "$work/refused/.git"
in_refused "check-lock-file: .: git doesn't list its files: fatal: not a git repository: $(cd "$work/refused" && pwd -P)/nowhere" "$here/$check"
chmod 700 "$work/refused/shut"
# Manifests whose lock files are next to them or further up.
cat > "$work/lines" <<'END'
package-lock.json: lodash 4.17.20 does not satisfy ^4.17.21, required by the project
package-lock.json: a 2.0.0 does not satisfy ^1.0.0, required by packages/b
web/yarn.lock: react ^18.2.0 is missing, required by the project
END
same 'manifests' 1 /dev/null "$work/lines" /dev/null \
    sh -c 'cd cases/monorepo && exec "$1" --quiet packages/b/package.json package.json web/package.json' - "$here/$check"
sed -n 's/^package-lock.json: //p' "$work/lines" > "$work/fields"
same 'a manifest' 1 /dev/null "$work/fields" /dev/null sh -c 'cd cases/monorepo && exec "$1" --quiet packages/b/package.json' - "$here/$check"
mkdir -p "$work/library/inner" && git init -q "$work/library" && cp cases/nothing-wrong.json "$work/package-lock.json"
echo '{}' > "$work/library/inner/package.json"
refused "check-lock-file: $work/library/inner/package.json: no lock file is for it" /dev/null $check "$work/library/inner/package.json"
rm "$work/package-lock.json"
refused "check-lock-file: $work/gone/package.json: it can't be read: No such file or directory" /dev/null $check "$work/gone/package.json"
if has_toml; then
    echo 'itoa 1.0.4 does not satisfy 1.0.10, required by app 0.1.0' > "$work/lines"
    same 'a Cargo.toml' 1 /dev/null "$work/lines" /dev/null $check --quiet cases/monorepo/rust/app/Cargo.toml
fi
mkdir "$work/shrinkwrap"
cp cases/nothing-wrong.json "$work/shrinkwrap/package-lock.json" && cp cases/nothing-wrong.json "$work/shrinkwrap/npm-shrinkwrap.json"
{
    echo 'package-lock.json: left out, since npm-shrinkwrap.json is beside it'
    $check cases/nothing-wrong.json 2>&1 | sed 's:cases/nothing-wrong:npm-shrinkwrap:'
} > "$work/told"
same 'npm-shrinkwrap.json beside package-lock.json' 0 /dev/null /dev/null "$work/told" \
    sh -c 'cd "$1" && exec "$2"' - "$work/shrinkwrap" "$here/$check"
mkdir -p "$work/leftover/packages/b"
cp cases/monorepo/package.json cases/monorepo/package-lock.json "$work/leftover"
for name in package.json package-lock.json; do cp "cases/monorepo/packages/b/package.json" "$work/leftover/packages/b/$name"; done
# in_leftover STATUS PATH LINE..: checks a path there, and compares the lines on standard error.
in_leftover() {
    wanted=$1 path=$2
    shift 2
    printf '%s\n' "$@" > "$work/told"
    same "a package-lock.json in a workspace, by $path" "$wanted" /dev/null /dev/null "$work/told" \
        sh -c 'cd "$1" && exec "$2" "$3"' - "$work/leftover" "$here/$check" "$path"
}
left_out='packages/b/package-lock.json: left out, since it is in a workspace of .'
in_leftover 2 packages/b "$left_out" 'check-lock-file: packages/b: none of its lock files is checked'
in_leftover 2 packages/b/package-lock.json \
    "check-lock-file: packages/b/package-lock.json: it isn't checked, since it is in a workspace of ."
refused "check-lock-file: --package-json is for exactly one file; see check-lock-file --help" /dev/null \
    $check --package-json cases/stale/package.json cases/stale
refused "check-lock-file: --package-json is for exactly one file; see check-lock-file --help" /dev/null \
    $check --package-json cases/stale/package.json cases/stale/package-lock.json cases/missing.json
refused 'check-lock-file: two files are standard input; see check-lock-file --help' /dev/null $check --allow - -
refused 'check-lock-file: unknown format: "xml" isn'"'"'t text, tsv, json, github or sarif; see check-lock-file --help' /dev/null \
    $check --format xml cases/missing.json
refused 'check-lock-file: --json and --format tsv are both given; see check-lock-file --help' /dev/null \
    $check --format tsv --json cases/missing.json

sed 's/^/standard input: /' cases/aliases.text > "$work/lines"
$check --quiet cases/monorepo/web/yarn.lock | sed 's|^|cases/monorepo/web/yarn.lock: |' >> "$work/lines"
same 'standard input and a file' 1 cases/aliases.json "$work/lines" /dev/null \
    $check --quiet - cases/monorepo/web/yarn.lock

# The directories that patterns of workspaces match, as in npm.
mkdir -p "$work/patterns/packages/a/inner" "$work/patterns/packages/b" "$work/patterns/other/a" "$work/patterns/packages/.h"
mkdir -p "$work/patterns/packages/a/node_modules/part" && ln -s ../../.. "$work/patterns/packages/a/inner/up"
cut -f 1 cases/workspace-patterns | python3 -c 'import sys
from semver_parser.checks.node.patterns import places_at
for line in sys.stdin:
    pattern = line.rstrip("\n")
    print(pattern, " ".join(places_at(pattern, sys.argv[1])), sep="\t")' "$work/patterns" | diff -u cases/workspace-patterns -
echo 'patterns of workspaces: passed'
refused "$told $work/package.json: it isn't a valid package.json: workspaces: ../** is for directories outside of the project" \
    /dev/null sh -c 'cd "$1" && echo "{\"workspaces\": [\"../**\"]}" > package.json && exec "$2" --package-json "$1/package.json" "$3"' \
    - "$work" "$here/$check" "$here/cases/yarn/classic-right/yarn.lock"

# ---- what is left out

for file in Cargo.lock package-lock.json pnpm-lock.yaml yarn.lock berry/yarn.lock; do
    may_read "$file" || continue
    case $file in Cargo.lock) wanted=1 by='app 0.1.0' ;; *) wanted='^1.0.0' by='the project' ;; esac
    [ "$file" != berry/yarn.lock ] || wanted='^1.0.0' by=no-dev
    echo "num 2.0.0 does not satisfy $wanted, required by $by" > "$work/lines"
    same "$file without what is for development" 1 /dev/null "$work/lines" /dev/null $check --quiet --no-dev "cases/no-dev/$file"
    status=0
    $check --quiet "cases/no-dev/$file" > "$work/lines" || status=$?
    [ "$status" = 1 ] || exit 1
    grep -q '^tool 2.0.0 does not satisfy' "$work/lines"
done
cat > "$work/lines" <<'END'
tool 1 does not satisfy ^1.0.0, required by the project
tool 1 has an invalid version, in node_modules/tool
part 2.0.0 does not satisfy ^1.0.0, required by node_modules/tool
END
same 'packages that npm marks' 1 /dev/null "$work/lines" /dev/null $check --quiet cases/no-dev/marked.json
echo 'checked 2 requirements and 1 package in cases/no-dev/marked.json (npm); 2 left out' > "$work/told"
same 'without the packages that npm marks' 0 /dev/null /dev/null "$work/told" $check --no-dev cases/no-dev/marked.json
sed -f cases/cargo/workspace-broken.sed cases/cargo/workspace.json > "$work/graph"
sed '/missing$/d' cases/cargo/workspace-broken.expected > "$work/fields"
same 'a graph without what is for development' 1 "$work/graph" "$work/fields" /dev/null $fields --no-dev -
if has_yaml; then
    sed '/@of\/texts 1.2.0 requires/d' cases/pnpm/wrong-9.expected > "$work/fields"
    same 'a file of pnpm without peers' 1 /dev/null "$work/fields" /dev/null $fields --no-peers cases/pnpm/wrong-9.yaml
fi

# allowed STATUS KNOWN LINES ARGUMENT..: checks the lock files of cases/monorepo with known
# findings.
allowed() {
    status=$1
    printf "$2" > "$work/known.txt"
    printf "$3" > "$work/lines"
    shift 3
    same "known findings, $*" "$status" /dev/null "$work/lines" /dev/null \
        sh -c 'cd cases/monorepo && exec "$@"' - "$here/$check" --quiet --allow "$work/known.txt" "$@"
}
lodash='lodash 4.17.20 does not satisfy ^4.17.21, required by the project'
a='a 2.0.0 does not satisfy ^1.0.0, required by packages/b'
allowed 1 "# known\n\n$lodash # later # or never\n" "$a\n" package-lock.json
allowed 0 "package-lock.json: $lodash # later\n  $a # never\n" '' package-lock.json
for path in ./package-lock.json "$here/cases/monorepo/package-lock.json" packages/../package-lock.json; do
    allowed 0 "package-lock.json: $lodash # later\npackage-lock.json: $a # never\n" '' "$path"
done
gone="$work/known.txt: line 2 no longer applies: left-pad 1 is missing # gone\n"
allowed 1 "$lodash # later\nleft-pad 1 is missing # gone\n$a # never\n" "$gone" package-lock.json
allowed 1 "$lodash # later\nleft-pad 1 is missing # gone\n$a # never\n" \
    "web/yarn.lock: react ^18.2.0 is missing, required by the project\n$gone" package-lock.json web
allowed 1 "$lodash # later\nweb/yarn.lock: $a # of a file that is not checked\n" "$a\n" package-lock.json
allowed 1 "$lodash # later\n" "^1.0.0\t2.0.0\tpackages/b requires a\n" --format tsv package-lock.json
printf '%s # later\nleft-pad 1 is missing # perhaps in the file that is refused\n' "$lodash" > "$work/known.txt"
echo "cases/monorepo/package-lock.json: $a" > "$work/lines"
same 'known findings beside a file that is refused' 2 /dev/null "$work/lines" cases/cut-off.told \
    $check --quiet --allow "$work/known.txt" cases/monorepo/package-lock.json cases/cut-off.json
echo '{"lockfileVersion": 3, "packages": {"": {"dependencies": {"x": "1 # 2"}}, "node_modules/x": {"version": "1.0.0"}}}' > "$work/lock"
echo 'x 1.0.0 cannot be checked: "1 # 2" is an invalid range, required by the project # known # so far' > "$work/known.txt"
same 'a known finding with a mark in it' 0 "$work/lock" /dev/null /dev/null $check --quiet --allow "$work/known.txt" -
printf '%s # later\n' "$lodash" > "$work/known.txt"
echo 'checked 2 requirements and 1 package in cases/monorepo/package-lock.json (npm); 1 allowed
to repair a in cases/monorepo/package-lock.json, change the version in the manifest, or the requirement' > "$work/told"
echo "$a" > "$work/lines"
same 'known findings are counted' 1 /dev/null "$work/lines" "$work/told" \
    $check --allow "$work/known.txt" cases/monorepo/package-lock.json
for line in "$lodash" "$lodash # " "$lodash #later" "# 1
$lodash"; do
    echo "$line" > "$work/known.txt"
    number=$(wc -l < "$work/known.txt")
    refused "check-lock-file: $work/known.txt: line $number: no reason" /dev/null \
        $check --allow "$work/known.txt" cases/monorepo/package-lock.json
done
refused "check-lock-file: nowhere: it can't be read: No such file or directory" /dev/null $check --allow nowhere $good
