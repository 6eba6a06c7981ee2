#!/bin/sh
# Tests each command with which README and the page of the checkers install something, for a user who
# has cargo, Python and the system, but no kit, nothing installed and no variable set, and no network
# if the system can hide it. `URL` in the commands is a clone of the files that git lists, as they are
# now, and `REV` is its commit. Needs cargo, git and python3. Skips what needs pipx, pre-commit, PyYAML
# or ensurepip if that is missing.
set -eu
unset CDPATH
cd "$(dirname "$0")/.."
for tool in cargo git python3; do
    command -v $tool > /dev/null || { echo "installs: no $tool, so nothing is tested" && exit; }
done
git rev-parse --git-dir > /dev/null 2>&1 ||
    { echo 'installs: this is not a repository of git, so nothing is tested' && exit; }
top=$PWD checkers=$PWD/python/semver_parser/checks/README.md
work=$(mktemp -d)
trap 'rm -rf "$work"' EXIT
trap 'exit 2' HUP INT TERM
unset $(git rev-parse --local-env-vars)
clone="$work/a clone"
mkdir "$clone" "$work/home" "$work/runner"

# fails WHY: prints the last output and why, and exits with 1.
fails() {
    cat "$work/log"
    echo "installs: $1"
    exit 1
}

# The compilers themselves, since the wrappers of rustup and pyenv read the user's settings.
python=$(python3 -c 'import os, sys; print(os.path.realpath(sys.executable))')
path=$(rustc --print sysroot)/bin:${python%/*}:/usr/bin:/bin
apart=''
! unshare -n true 2> /dev/null || apart='unshare -n'

# alone COMMAND..: runs a command as such a user.
alone() {
    $apart env -i PATH="$path" HOME="$work/home" LANG=C.UTF-8 "$@"
}

# ends STATUS COMMAND..: runs a command as such a user. Its output is kept in `output` and `log`.
ends() {
    wanted=$1 status=0
    shift
    alone "$@" > "$work/output" 2> "$work/log" || status=$?
    has_ended "$*"
}

# has_ended WHAT: the status has to be the expected one.
has_ended() {
    [ "$status" = "$wanted" ] && return
    cat "$work/output"
    fails "$1: status $status instead of $wanted"
}

# lists FILE WANTED: the file has to have the expected lines.
lists() {
    diff -u "$work/$2" "$work/$1" > "$work/differences" ||
        { cat "$work/differences" && fails 'other lines are written'; }
}

# as_written COMMAND: prints a command of README, which has to have it, for this clone.
as_written() {
    grep -qF "\`$1\`" "$top/README.md" || { : > "$work/log" && fails "README has no command $1"; }
    echo "$1" | sed "s|URL|file://$address|"
}

make_clone() {
    git ls-files -z --cached --others --exclude-standard > "$work/files"
    tar --null -T "$work/files" --ignore-failed-read -cf - 2> /dev/null | tar -C "$clone" -xf -
    git -C "$clone" init -q
    git -C "$clone" add -A
    git -C "$clone" -c user.name=a -c user.email=a@b commit -qm 'What is tested'
    revision=$(git -C "$clone" rev-parse HEAD)
    # In a URL a blank is %20.
    address=$(echo "$clone" | sed 's/ /%20/g')
    ! alone sh -c 'command -v rt' > "$work/log" || fails "rt is there: $(cat "$work/log")"
    cp -R "$top/python/cases/monorepo" "$work/monorepo"
    block_after 'cd python/cases/monorepo && check-lock-file' > "$work/shown"
    sed '/^checked /,$d' "$work/shown" > "$work/found"
    [ -s "$work/found" ] || { : > "$work/log" && fails 'README has no example of check-lock-file'; }
}

# block_after COMMAND: prints what README shows as the output of a command.
block_after() {
    awk -v command="    \$ $1" '$0 == command { here = 1; next }
        here && (!/^    / || /^    \$ /) { exit }
        here { print substr($0, 5) }' "$top/README.md"
}

# The pages and debian/control name the oldest cargo that can build everything, and README the oldest
# Rust for the crate, as cargo reads them.
the_oldest_cargo() {
    : > "$work/log"
    oldest=$(sed -n 's/^rust-version = "\(.*\)"$/\1/p' rust/capi/Cargo.toml)
    for page in README.md python/README.md; do
        tr '\n' ' ' < "$page" | grep -q "cargo $oldest or later" ||
            fails "$page has another version of cargo than rust/capi/Cargo.toml"
    done
    grep -q "cargo (>= $oldest), .*rustc (>= $oldest)" debian/control ||
        fails 'debian/control has another version of cargo than rust/capi/Cargo.toml'
    oldest=$(sed -n 's/^rust-version = "\(.*\)"$/\1/p' rust/Cargo.toml)
    grep -q "Rust $oldest is enough" README.md && grep -q "Rust $oldest or later" rust/README.md ||
        fails 'README.md or rust/README.md has another version of Rust than rust/Cargo.toml'
}

# has_ensurepip: returns whether python3 can make an environment.
has_ensurepip() {
    command -v "$python" > /dev/null && alone "$python" -c 'import ensurepip' 2> /dev/null && return
    echo 'installs: no ensurepip (Debian: python3-venv), so pip is not tested'
    return 1
}

# The first commands of README, pasted into a shell: they install the programs and the checkers.
first_commands() {
    has_ensurepip || return 0
    awk '/^    cargo install --git URL/ { here = 1 }
        here && !/^    / { exit }
        here { print substr($0, 5) }' README.md | sed "s|URL|file://$address|" > "$work/pasted"
    [ "$(wc -l < "$work/pasted")" = 4 ] || fails 'README has other first commands'
    echo 'PATH=$HOME/.cargo/bin:$PATH; cd "$1"; compare-ranges 1.2; check-lock-file 2>&1' >> "$work/pasted"
    mkdir "$work/elsewhere"
    (cd "$work/elsewhere" && ends 1 sh -e "$work/pasted" "$work/monorepo")
    { block_after 'compare-ranges 1.2' && cat "$work/shown"; } > "$work/wanted"
    sed -n '/^cargo: /,$p' "$work/output" > "$work/last"
    lists last wanted
}

# Python: installs the package with its library and the checkers, by the URL and in the clone.
for_python() {
    has_ensurepip || return 0
    for command in '.venv/bin/pip install git+URL' '.venv/bin/pip install .'; do
        rm -rf "$work/environment"
        ends 0 sh -c "$(as_written 'python3 -m venv .venv' | sed "s|\.venv|$work/environment|")"
        (cd "$clone" && ends 0 sh -c "$(as_written "$command" | sed "s|\.venv|$work/environment|")")
        (cd "$work/monorepo" && ends 1 "$work/environment/bin/check-lock-file")
        lists output found
        [ -z "$(git -C "$clone" status --short --ignored | grep -v __pycache__)" ] ||
            fails "$command leaves something in the clone"
    done
}

# The checkers by pipx, from the clone's path, since pipx accepts no URL with file://. pipx first
# makes an environment of its own, and tries to update pip there.
for_pipx() {
    alone sh -c 'command -v pipx' > /dev/null ||
        { echo 'installs: no pipx (Debian: pipx), so it is not tested' && return; }
    as_written 'pipx install git+URL' > /dev/null
    ends 0 env PIP_RETRIES=0 pipx install "$clone"
    (cd "$work/monorepo" && ends 1 "$work/home/.local/bin/check-lock-file")
    lists output found
}

# The wheel by its URL and SHA-256, as in the page of the checkers: pip installs it, and rejects any
# other sum.
for_python_by_a_sum() {
    [ -e "$work/environment" ] || return 0
    mkdir "$work/wheels"
    (cd "$clone" && ends 0 make wheel OUT="$work/wheels")
    wheel=$(echo "$work"/wheels/*.whl)
    sum=$(sha256sum "$wheel" | cut -d ' ' -f 1)
    grep -q "^\.venv/bin/pip install 'WHEEL-URL#sha256=SUM' PyYAML$" "$checkers" ||
        fails 'the page of the checkers has another command for the wheel'
    ends 1 "$work/environment/bin/pip" install --force-reinstall "file://$wheel#sha256=0$sum"
    ends 0 "$work/environment/bin/pip" install --force-reinstall "file://$wheel#sha256=$sum"
    (cd "$work/monorepo" && ends 1 "$work/environment/bin/check-lock-file")
    lists output found
}

# The programs, and a crate that depends on this one, each by the URL.
for_cargo() {
    command=$(as_written 'cargo install --git URL semver-parser-programs')
    ends 0 sh -c "$command --root '$work/programs'"
    ends 0 "$work/programs/bin/compare-ranges" 1.2
    block_after 'compare-ranges 1.2' > "$work/wanted"
    lists output wanted
    ends 0 cargo init --quiet --name user "$work/user"
    command=$(as_written 'cargo add --git URL semver-parser-proved --rename semver-parser')
    (cd "$work/user" && ends 0 sh -c "$command")
    echo 'use semver_parser::{satisfies, Dialect::Npm};
fn main() { println!("{}", satisfies("1.9.0", "^1.2", Npm).unwrap()) }' > "$work/user/src/main.rs"
    (cd "$work/user" && ends 0 cargo run --quiet --offline)
    echo true > "$work/wanted"
    lists output wanted
}

# yaml_of_page TEXT: prints the first block of YAML in the page of the checkers that contains the
# text.
yaml_of_page() {
    awk -v text="$1" '/^```/ {
            if (has) { printf "%s", block; exit }
            here = /^```yaml/; block = ""; has = 0
            next
        }
        here { block = block $0 "\n"; if (index($0, text)) has = 1 }' "$checkers"
}

# hook ID STATUS ARGUMENT..: pre-commit runs the hook of the page under this name. It has to exit with
# this status.
hook() {
    id=$1 wanted_status=$2
    shift 2
    yaml_of_page 'id: check-lock-file' | sed "s|URL|$clone|; s|REV|$revision|; s|id: .*|id: $id|" \
        > "$work/hooked/.pre-commit-config.yaml"
    git -C "$work/hooked" add .pre-commit-config.yaml
    (cd "$work/hooked" && ends "$wanted_status" pre-commit run "$@")
}

# pre-commit installs the hook, and runs it if a lock file, a manifest or a setting changed. The
# other hook also runs if one is deleted.
for_pre_commit() {
    alone sh -c 'command -v pre-commit' > /dev/null ||
        { echo 'installs: no pre-commit (Debian: pre-commit), so it is not tested' && return; }
    cp -R "$work/monorepo" "$work/hooked"
    git -C "$work/hooked" init -q
    git -C "$work/hooked" add -f .
    git -C "$work/hooked" -c user.name=a -c user.email=a@b commit -qm one
    hook check-lock-file 1 --all-files
    sed -n '/^[^ ]*\(lock.json\|\.lock\): /p' "$work/output" > "$work/listed"
    lists listed found
    hook check-lock-file 0
    grep -q 'no files to check' "$work/output" || fails 'the hook runs for any other file'
    git -C "$work/hooked" reset -q --hard
    : > "$work/hooked/.npmrc"
    git -C "$work/hooked" add -f .npmrc
    hook check-lock-file 1
    ! grep -q 'no files to check' "$work/output" || fails "the hook doesn't run for .npmrc"
    git -C "$work/hooked" reset -q --hard
    git -C "$work/hooked" rm -q packages/b/package.json
    hook check-lock-file 0
    hook check-lock-file-always 1
}

# The hook runs for each file that check-lock-file knows by name, and for settings of the tools.
for_each_name() {
    has_yaml 'which files the hook is for' && [ -e "$work/environment" ] || return 0
    ends 0 "$work/environment/bin/python" -c 'from semver_parser.checks import discovery
print(*discovery.LOCK_FILES, *discovery.FOR)'
    "$python" - "$clone/.pre-commit-hooks.yaml" "$work/output" << 'END' > "$work/log" ||
import re, sys, yaml

with open(sys.argv[1]) as file:
    hook = yaml.safe_load(file)[0]
with open(sys.argv[2]) as file:
    names = [*file.read().split(), ".yarnrc", ".yarnrc.yml", ".pnpmfile.cjs", "bunfig.toml"]
others = ["a.lock", "xpackage.json", "package.json.md", "Cargo.lock/a"]
lacks = [it for name in names for it in (name, f"a/{name}") if not re.search(hook["files"], it)]
has = [it for it in others if re.search(hook["files"], it)]
print(lacks, has)
sys.exit(bool(lacks or has))
END
        fails 'the hook runs for other files'
}

# has_yaml WHAT: returns whether python3 has PyYAML, which the tests with YAML need.
has_yaml() {
    "$python" -c 'import yaml' 2> /dev/null && return
    echo "installs: python3 has no PyYAML (Debian: python3-yaml), so $1 is not tested"
    return 1
}

# action ARGS FORMAT STATUS: runs the steps of action.yml as GitHub does: each by bash, with the
# inputs in its environment, until one fails. The first step runs only once.
action() {
    INPUT_ARGS=$1 INPUT_FORMAT=$2 "$python" "$top/tests/action-steps.py" \
        "$clone/action.yml" "$work/steps"
    [ ! -e "$work/runner/check-lock-file" ] || rm "$work/steps/00.sh"
    wanted=$3 status=0
    for step in "$work"/steps/*; do
        status=0
        (cd "$work/monorepo" && alone GITHUB_ACTION_PATH="$clone" RUNNER_TEMP="$work/runner" \
            GITHUB_ACTIONS=true bash "$step") > "$work/output" 2> "$work/log" || status=$?
        [ "$status" = 0 ] || break
    done
    has_ended 'the action'
}

# GitHub: the action, without inputs and with those that the page of the checkers shows.
for_github() {
    has_yaml 'the action' || return 0
    yaml_of_page 'uses: OWNER/REPO@REV' > "$work/workflow"
    "$python" "$top/tests/action-steps.py" --workflow "$clone/action.yml" "$work/workflow"
    git -C "$work/monorepo" init -q && git -C "$work/monorepo" add -f .
    action '' github 1
    [ "$(grep -c '^::error file=' "$work/output")" = "$(wc -l < "$work/found")" ] ||
        fails 'other annotations are written'
    mkdir -p "$work/monorepo/ci"
    sed 's/$/ # known/' "$work/found" > "$work/monorepo/ci/known.txt"
    action '--allow ci/known.txt' text 0
    action '--no-such-option' github 2
    action "\$(touch '$work/run')" github 2
    [ ! -e "$work/run" ] || fails 'an input of the action is run as a command'
}

make_clone
the_oldest_cargo
first_commands
for_python
for_pipx
for_python_by_a_sum
for_cargo
for_pre_commit
for_each_name
for_github
echo "installs: passed${apart:+, without a network}"
