# Sourced by tools/compare.sh: prints what check-lock-file lists for the lock files in Debian's
# source packages of these names, and for npm's files also the problems that npm has with them.
set -eu
[ $# -gt 0 ] || set -- node-graphql node-lodash
for tool in apt-get npm python3; do
    command -v "$tool" > /dev/null || { echo "compare: needs $tool" >&2 && exit 2; }
done
here=$PWD work=$(mktemp -d)
trap 'rm -rf "$work"' EXIT
trap 'exit 2' HUP INT TERM
# apt with its own lists and sources: the system's, without security updates, as source packages.
mkdir -p "$work/sources" "$work/lists/partial" "$work/cache/archives/partial" "$work/packages" "$work/trees"
for file in /etc/apt/sources.list.d/*.sources; do
    [ ! -e "$file" ] || awk 'BEGIN { RS = ""; ORS = "\n\n" } !/security/' "$file" |
        sed 's/^Types:.*/Types: deb-src/' > "$work/sources/${file##*/}"
done
for file in /etc/apt/sources.list /etc/apt/sources.list.d/*.list; do
    [ ! -e "$file" ] || sed -n '/security/d; s/^deb /deb-src /p' "$file" > "$work/sources/${file##*/}"
done
apt() {
    apt-get -qq -o Dir::Etc::sourcelist=/dev/null -o Dir::Etc::sourceparts="$work/sources" \
        -o Dir::State::lists="$work/lists" -o Dir::Cache="$work/cache" -o APT::Sandbox::User=root "$@"
}
apt update || { echo 'compare: apt-get has no source packages here' >&2 && exit 2; }
for name in "$@"; do
    (cd "$work/packages" && apt source --download-only "$name") || { echo "$name: not there" && continue; }
    for archive in "$work/packages"/*.orig*.tar.*; do
        case $archive in *.asc) continue ;; esac
        base=${archive##*/}
        mkdir -p "$work/trees/${base%.tar.*}" && tar -C "$work/trees/${base%.tar.*}" -xf "$archive"
    done
    rm -f "$work/packages"/*
done

[ -n "$(ls "$work/trees")" ] || { echo 'compare: none of the source packages can be downloaded here' >&2 && exit 2; }

# of_npm FILE: prints the problems that npm itself has with a lock file.
of_npm() {
    (cd "$(dirname "$1")" && npm_config_cache="$work/npm" npm_config_userconfig=/dev/null npm_config_offline=true \
        npm ls --package-lock-only --all --json 2> /dev/null || :) |
        python3 -c 'import json, sys
for it in json.load(sys.stdin).get("problems", []): print("    npm:", it.partition(sys.argv[1])[0].strip())' "$work"
}
cd "$work/trees"
# Not in node_modules: a source package has none that belongs to the project.
find . -name package-lock.json -o -name npm-shrinkwrap.json -o -name yarn.lock -o -name pnpm-lock.yaml -o -name Cargo.lock |
    grep -v '/node_modules/' | LC_ALL=C sort | while read -r file; do
    echo "${file#./}"
    "$here/python/bin/check-lock-file" "$file" 2>&1 | sed 's/^/    /'
    case $file in *package-lock.json | *npm-shrinkwrap.json) of_npm "$file" ;; esac
done
