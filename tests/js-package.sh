#!/bin/sh
# Makes the JavaScript package, packs it, and installs it in an empty project without a network.
# There it runs the tests of the package, of its types if tsc is installed, the rows of the tables
# of cases, and random calls, each of which has to return the same result after other calls as it
# does alone.
set -eu
top=$(dirname -- "$(dirname -- "$(readlink -f -- "$0")")")
fail() {
    echo "JavaScript package: $*"
    exit 1
}
work=$(mktemp -d)
trap 'rm -rf "$work"' EXIT
trap 'exit 2' HUP INT TERM
export HOME="${HOME:-$work}" npm_config_cache="$work/cache" npm_config_offline=true \
    npm_config_update_notifier=false npm_config_audit=false npm_config_fund=false \
    npm_config_userconfig=/dev/null
"$top/tools/make-js.sh" package "$work" > /dev/null
cd "$work"
packed=$(echo semver-parser-proved-*.tgz)
mkdir unpacked && tar -xzf "$packed" -C unpacked
if command -v wasm-opt > /dev/null; then
    [ "$(stat -c %s unpacked/package/semver_parser.wasm)" -le 90000 ] ||
        fail 'the module has more than 90 kB'
    [ "$(stat -c %s "$packed")" -le 120000 ] || fail "the package has more than 120 kB"
else
    echo 'JavaScript package: no wasm-opt (Debian: apt-get install binaryen), so no size is checked'
fi
for file in README.md LICENSE-MIT LICENSE-APACHE index.mjs index.cjs index.d.mts index.d.cts \
    browser.mjs semver_parser.wasm functions/satisfies.js ranges/valid.js classes/range.js \
    package.json; do
    [ -f "unpacked/package/$file" ] || fail "it has no $file"
done
grep -q "\"version\": \"$(cat "$top/VERSION")\"" "$top/js/package.json" ||
    fail 'package.json has another version than VERSION'
node "$top/tests/js-rows.js" unpacked/package/index.cjs
node "$top/js/tests/order.mjs" "$PWD/unpacked/package/index.cjs" 1500 1

# The cases, and the differences that the README lists, are what node-semver returns, if npm has the
# version of node-semver that they were made with.
NODE_PATH=$(npm root -g)/npm/node_modules
export NODE_PATH
theirs=$(node -p 'require("semver/package.json").version' 2> /dev/null || :)
unset NODE_SEMVER
if [ "$theirs" = 7.6.2 ]; then
    export NODE_SEMVER="$NODE_PATH/semver"
    node "$top/js/tests/make-cases.cjs" | cmp -s - "$top/js/tests/cases.json" ||
        fail "cases.json isn't what node-semver $theirs returns"
    node "$top/js/tests/differences.mjs" "$top/js/README.md" "$NODE_PATH/semver" ||
        fail "the README has another result of node-semver $theirs"
else
    echo "JavaScript package: no node-semver 7.6.2 in npm, so the cases aren't made anew"
fi
unset NODE_PATH

mkdir project && cd project
echo '{ "name": "project", "private": true }' > package.json
npm install --silent "../$packed" > "$work/log" 2>&1 ||
    { cat "$work/log" && fail 'npm does not install it'; }
for file in cases.json package.test.mjs results.mjs differences.mjs; do
    cp "$top/js/tests/$file" .
done
node --test package.test.mjs > "$work/log" 2>&1 || { cat "$work/log" && fail 'its tests fail'; }
passed=$(sed -n 's/^# pass //p' "$work/log")
cp "$top/docs/examples/js/raise-requirement.cjs" .
"$top/tests/runs.py" raise-requirement node "$PWD/raise-requirement.cjs"
types='no tsc (Debian: apt-get install node-typescript), so its types are not checked'
if command -v tsc > /dev/null; then
    cp "$top/js/tests/types.ts" types.mts
    cp "$top/js/tests/types.ts" types.cts
    check_types() { tsc --strict --noEmit --target es2022 "$@" > "$work/log" 2>&1; }
    check_types --module node16 --moduleResolution node16 types.mts types.cts ||
        { cat "$work/log" && fail 'tsc --strict rejects its types'; }
    # A project that is written for `@types/semver`, once with the package installed as `semver`.
    mkdir as-semver && cp "$top/js/tests/types-of-semver.ts" as-semver
    (cd as-semver && echo '{ "private": true }' > package.json &&
        npm install --silent "semver@file:../../$packed" > "$work/log" 2>&1 &&
        for modules in commonjs:node node16:node16; do
            check_types --esModuleInterop --module "${modules%:*}" \
                --moduleResolution "${modules#*:}" types-of-semver.ts || exit
        done) ||
        { cat "$work/log" && fail 'a project that is written for @types/semver does not compile'; }
    types='types checked'
fi
echo "JavaScript package: $passed tests, $(($(wc -l < cases.json) - 2)) cases, $types, passed"
