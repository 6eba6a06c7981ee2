#!/bin/sh
# Compares what texts mean here with what they mean elsewhere, on COUNT random cases of each kind:
# tools/compare.sh WITH [COUNT] [SEED]. WITH is one of the following; what it needs is in
# parentheses.
#
# - crate: the original Rust crate semver-parser, everything that it parses (cargo and Debian's
#   librust-semver-parser-dev)
# - cargo: Cargo's crate semver, which pre-releases a range contains by default, and which versions
#   requirements contain (cargo, librust-semver-dev and librust-semver-parser-dev)
# - node: node-semver, which versions a range contains in npm mode, and its intersects, subset and
#   minVersion (nodejs and node-semver)
# - npm: node-semver as npm ships it, which ranges npm's dialect accepts, which versions they
#   contain, and how node-semver reads the ranges that sets are printed as (npm)
# - versions: both tools, which texts are versions, and which versions are in ranges (npm, cargo and
#   librust-semver-dev)
# - real: both tools, with the texts of COUNT of Debian's node-* packages and of as many librust-*
#   packages, and every version in these (npm, cargo, librust-semver-dev, python3, and a network)
# - grid: brute force with a grid of versions, what sets of versions return for two ranges (python3)
# - lines: the definitions in Python, what release-filter writes for COUNT texts of lines, each cut
#   into pieces in 100 ways (python3)
# - version-places: brute force with node-semver as npm ships it, and with grammars, where and why a
#   string is an invalid version, in each dialect (npm)
# - erased: the kit's build and cargo's, what the table of cases of the port writes for COUNT random
#   rows, and release-filter for as many lines, in each dialect and by each rule (python3, cargo)
# - crate-tests: the tests and examples of the original Rust crate, run with rust/ (cargo and
#   librust-semver-parser-dev)
# - semver-suite: the tests of Cargo's crate semver 1.0.14, run with rust/ and Dialect::Cargo by a
#   shim with semver's names: which assertions fail (cargo, python3 and librust-semver-dev)
# - targets: the rows, the library tests and the tests of failing allocations of rust/ on i686, and
#   on aarch64 and s390x with qemu, and cargo check for each other target that is installed (cargo,
#   Debian's rustc-web, its std for these, gcc for all three, libc6-i386 and qemu-user)
# - js: node-semver as npm ships it, each of its calls that the JavaScript package has (npm, and
#   what rust/wasm/build.sh needs)
# - node-suite [--show]: the tests of node-semver 7.6.1, run with the JavaScript package by a shim
#   for tap: which assertions fail (apt-get with its network, node, and what rust/wasm/build.sh
#   needs)
# - npm-on-it: npm with the JavaScript package instead of semver, what its commands write for COUNT
#   projects (the same as for js, and python3)
# - locks FILE..: node-semver, what check-lock-file lists for changed copies of lock files of yarn
#   and npm, and of the output of cargo metadata, for which it lists nothing (npm, and the library,
#   installed or named by SEMVER_PARSER_LIBRARY)
# - managers: npm, Debian's yarn 1 and Cargo themselves, what check-lock-file lists for lock files
#   that they write for COUNT random projects, and for projects with edited manifests and damaged
#   lock files, compared with whether the tool's own frozen install accepts these (npm, yarnpkg,
#   cargo, python3, and the library as for locks)
# - as-written: the same tools, whether check-lock-file lists anything for the lock files that they
#   write for COUNT random projects, and for the projects in python/cases/judged (the same)
# - judged [CASE]..: npm, Debian's yarn 1 and Cargo themselves, whether their frozen installs accept
#   the projects in python/cases/judged, and whether the commands that check-lock-file proposes
#   repair them (the same as for managers)
# - damaged-locks: check-lock-file and compare-requirements, which have to exit with 0, 1 or 2 for
#   COUNT damaged copies of the files in python/cases (python3 with PyYAML, and the library as for
#   locks)
# - real-locks [NAME..]: npm, what check-lock-file lists for the lock files in Debian's source
#   packages of these names (apt with its network, npm, and the library as for locks)
# - places: brute force with all texts of up to COUNT characters, the offset at which a string stops
#   being a range (python3)
# - upgrade: node-semver as npm ships it and Cargo's crate semver, what `upgrade` returns in each
#   language for each real requirement on this machine, and for COUNT random ones: when it returns
#   None, that a result is valid, contains the version and loses none, and how it is written; and
#   cargo-edit's rule, which result it has (npm, cargo, librust-semver-dev, gcc, python3, and what
#   rust/wasm/build.sh needs)
# - requirement: the same tools, what `to_requirement` returns for each real requirement on this
#   machine by each rule for pre-releases, and for how many there is none (npm, cargo, python3 and
#   librust-semver-dev)
# - order: a new process, what each of COUNT random calls, at least 2000, returns after other calls:
#   calls of the JavaScript package, of the Python package, also by several threads, and of the C
#   functions (node, what rust/wasm/build.sh needs, python3 and gcc)
#
# It isn't part of the gate.
set -eu
cd "$(dirname "$0")/.."
seed=${3:-1}

# every PREFIX COUNT: prints the names of COUNT of Debian's packages, at equal distances in their
# order.
every() {
    apt-cache pkgnames "$1" | LC_ALL=C sort > "$packages/names"
    awk -v step="$(($(wc -l < "$packages/names") / $2))" 'NR % step == 0' "$packages/names" | head -n "$2"
}

# build: builds the cargo project in this directory with Debian's packages of Rust crates, without a
# registry.
build() {
    cargo build --quiet --release --offline --config 'source.crates-io.replace-with="debian"' \
        --config 'source.debian.directory="/usr/share/cargo/registry"'
}

case ${1-} in
locks)
    shift
    NODE_PATH=$(npm root -g)/npm/node_modules
    export NODE_PATH
    exec node tools/comparisons/planted-locks.js python/bin/check-lock-file 40 1 "$@"
    ;;
js | npm-on-it)
    package=$(mktemp -d)
    trap 'rm -rf "$package"' EXIT
    trap 'exit 2' HUP INT TERM
    tools/make-js.sh directory "$package"
    NODE_PATH=$(npm root -g)/npm/node_modules
    export NODE_PATH
    node -e 'console.log("node-semver", require("semver/package.json").version)'
    case $1 in
    js) node tools/comparisons/js-with-node-semver.js "$package/index.cjs" "${2:-1000000}" "$seed" ;;
    *) python3 -B tools/comparisons/managers/npm_on_it.py "$package" "${2:-40}" "$seed" ;;
    esac
    exit
    ;;
crate-tests)
    dpkg-query --show librust-semver-parser-dev
    user=$(mktemp -d)
    trap 'rm -rf "$user"' EXIT
    trap 'exit 2' HUP INT TERM
    python3 -B tools/comparisons/crate-tests.py /usr/share/cargo/registry/semver-parser-0.10.*/src "$user"
    exit
    ;;
semver-suite)
    user=$(mktemp -d)
    trap 'rm -rf "$user"' EXIT
    trap 'exit 2' HUP INT TERM
    for crate in /usr/share/cargo/registry/semver-1.0.*; do
        [ -d "$crate/tests" ] || { echo 'compare: needs librust-semver-dev' >&2 && exit 2; }
        python3 -B tools/comparisons/semver-suite.py "$crate" "$user"
    done
    exit
    ;;
targets)
    . tools/comparisons/targets.sh
    exit
    ;;
managers)
    shift
    python3 -B tools/comparisons/managers/run.py "${1:-100}" "${2:-1}" 5
    exit
    ;;
as-written)
    shift
    python3 -B tools/comparisons/managers/run.py "${1:-200}" "${2:-1}" 0
    exec python3 -B tools/comparisons/managers/judged.py --as-written
    ;;
judged)
    shift
    exec python3 -B tools/comparisons/managers/judged.py "$@"
    ;;
node-suite)
    shift
    . tools/comparisons/node-suite.sh
    exit
    ;;
real-locks)
    shift
    . tools/comparisons/real-locks.sh
    exit
    ;;
upgrade | requirement)
    . tools/comparisons/upgrade/run.sh
    exit
    ;;
damaged-locks)
    exec python3 tools/comparisons/damaged-locks.py "${2:-30000}" "$seed"
    ;;
order)
    built=$(mktemp -d)
    trap 'rm -rf "$built"' EXIT
    trap 'exit 2' HUP INT TERM
    tools/make-js.sh directory "$built/js"
    node js/tests/order.mjs "$built/js/index.cjs" "${2:-20000}" "$seed"
    tests/python-order.sh "${2:-20000}" "$seed"
    library=out/lib/libsemver_parser.a
    make -s $library
    cc -O1 -o "$built/order" tests/c/order.c tests/c/order_calls.c tests/c/texts.c $library
    "$built/order" "${2:-20000}" "$seed"
    exit
    ;;
crate | cargo | node | npm | versions | real | grid | lines | places | version-places | erased) ;;
*)
    kinds='crate|cargo|node|npm|versions|real|grid|lines|places|version-places|js|npm-on-it'
    kinds="$kinds|managers|as-written|damaged-locks|erased|order|upgrade|requirement"
    echo "usage: tools/compare.sh $kinds [COUNT] [SEED], or locks FILE.., or real-locks [NAME..]," >&2
    echo '       or judged [CASE..], or node-suite [--show], or semver-suite, crate-tests or targets' >&2
    exit 2
    ;;
esac

# The programs of cases: as the kit proves and builds that of the port, and as cargo builds the one
# of everything, which is a test.
port=crates/replayed_cases/out/replayed_cases
case $1 in crate | erased) (cd crates/replayed_cases && rt run < /dev/null > /dev/null) ;; esac
tests=$(cargo test --quiet --offline --release --no-run --test proved --message-format=json |
    sed -n 's/.*"name":"proved".*"executable":"\([^"]*\)".*/\1/p')
cases=$(mktemp)
trap 'rm -f "$cases"' EXIT
trap 'exit 2' HUP INT TERM
printf '#!/bin/sh\nexec "%s" layers\n' "$tests" > "$cases"
chmod +x "$cases"
case $1 in
crate)
    (cd tools/comparisons && build)
    dpkg-query --show librust-semver-parser-dev
    tools/comparisons/target/release/compare "$port" "${2:-1000000}" "$seed"
    ;;
cargo)
    (cd tools/comparisons && build)
    dpkg-query --show librust-semver-dev
    tools/comparisons/target/release/requirements-with-cargo-semver "$cases" "${2:-100000}" "$seed"
    tools/comparisons/target/release/with-cargo-semver "$cases" "${2:-100000}" "$seed"
    ;;
node)
    dpkg-query --show node-semver
    NODE_PATH=/usr/share/nodejs
    export NODE_PATH
    node tools/comparisons/with-node-semver.js "$cases" "${2:-100000}" "$seed"
    node tools/comparisons/sets-with-node-semver.js "$cases" "${2:-100000}" "$seed"
    ;;
npm)
    NODE_PATH=$(npm root -g)/npm/node_modules
    export NODE_PATH
    node -e 'console.log("node-semver", require("semver/package.json").version)'
    node tools/comparisons/npm-with-node-semver.js "$cases" "${2:-100000}" "$seed"
    node tools/comparisons/ranges-of-sets-with-node-semver.js "$cases" "${2:-100000}" "$seed"
    ;;
versions)
    (cd tools/comparisons && build)
    dpkg-query --show librust-semver-dev
    NODE_PATH=$(npm root -g)/npm/node_modules
    export NODE_PATH
    node -e 'console.log("node-semver", require("semver/package.json").version)'
    asked=tools/comparisons/target/release/versions-by-cargo-semver
    node tools/comparisons/versions-with-tools.js "$cases" "$asked" "${2:-100000}" "$seed"
    make -s
    node tools/comparisons/kept-with-tools.js out/cargo/release/release-filter "$asked" "${2:-100000}" "$seed"
    ;;
version-places)
    NODE_PATH=$(npm root -g)/npm/node_modules
    export NODE_PATH
    node -e 'console.log("node-semver", require("semver/package.json").version)'
    node tools/comparisons/version-places.js "$cases" "${2:-30000}" "$seed"
    ;;
real)
    (cd tools/comparisons && build)
    packages=$(mktemp -d)
    trap 'rm -rf "$packages" "$cases"' EXIT
    (cd "$packages" && apt-get download -qq $(every node- "${2:-100}") $(every librust- "${2:-100}"))
    tools/real-texts.py "$packages"
    NODE_PATH=$(npm root -g)/npm/node_modules node tools/comparisons/npm-with-node-semver.js "$cases" \
        --texts "$packages/npm.texts" "$packages/npm.versions"
    tools/comparisons/target/release/requirements-with-cargo-semver "$cases" \
        --texts "$packages/cargo.texts" "$packages/cargo.versions"
    ;;
grid)
    python3 tools/comparisons/with-a-grid.py "$cases" "${2:-100000}" "$seed"
    ;;
lines)
    make -s
    python3 tools/comparisons/lines-in-pieces.py out/cargo/release/release-filter "${2:-1000}" "$seed"
    ;;
erased)
    (cd crates/release_filter_main && rt run -- --version)
    cargo build --quiet --offline --release --bins
    python3 tools/comparisons/erased.py "$port" "$tests rows" \
        crates/release_filter_main/out/release_filter_main \
        target/release/release-filter "${2:-1000000}" "$seed"
    ;;
places)
    make -s
    python3 tools/comparisons/places.py "$cases" out/cargo/release/compare-ranges "${2:-4}"
    ;;
esac
