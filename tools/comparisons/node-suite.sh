# Sourced by tools/compare.sh: runs node-semver's own tests, from Debian's source package, against
# the JavaScript package. The suite of Debian has the version that node-suite.expected is for. If
# tsc is installed, js/tests/types-of-semver.ts is compiled with the types of @types/semver, which
# are in Debian's package node-semver.
suite=trixie
for tool in apt-get node; do
    command -v "$tool" > /dev/null || { echo "compare: needs $tool" >&2 && exit 2; }
done
work=$(mktemp -d)
trap 'rm -rf "$work"' EXIT
trap 'exit 2' HUP INT TERM
# apt with its own lists and sources: the suite's source packages, from the system's mirror.
mkdir -p "$work/lists/partial" "$work/cache/archives/partial" "$work/tree"
mirror=$(cat /etc/apt/sources.list /etc/apt/sources.list.d/*.sources 2> /dev/null |
    sed -nE 's/^(URIs:|deb) +([a-z]+:[^ ]*debian)\/?( .*)?$/\2/p' | head -n 1)
key=/usr/share/keyrings/debian-archive-keyring.gpg
for kind in deb deb-src; do
    echo "$kind [signed-by=$key] ${mirror:-http://deb.debian.org/debian} $suite main"
done > "$work/list"
apt() {
    apt-get -qq -o Dir::Etc::sourcelist="$work/list" -o Dir::Etc::sourceparts=/dev/null \
        -o Dir::State::lists="$work/lists" -o Dir::Cache="$work/cache" -o APT::Sandbox::User=root "$@"
}
apt update || { echo 'compare: apt-get has no source packages here' >&2 && exit 2; }
# The package has further archives, which aren't used. It is fine if one of them can't be
# downloaded.
(cd "$work" && apt source --download-only --tar-only node-semver) || :
for archive in "$work"/node-semver_*.orig.tar.*; do
    case $archive in *.asc) continue ;; esac
    [ -e "$archive" ] || { echo "compare: node-semver's source isn't here" >&2 && exit 2; }
    tar -C "$work/tree" --strip-components 1 -xf "$archive"
done
if command -v tsc > /dev/null; then
    types=$work/project/node_modules/@types/semver
    mkdir -p "$work/project/node_modules/@types"
    (cd "$work" && apt download node-semver && dpkg-deb -x node-semver_*.deb binary)
    mv "$work/binary/usr/share/nodejs/@types/semver" "$types"
    cp js/tests/types-of-semver.ts "$work/project"
    (cd "$work/project" && tsc --strict --noEmit --esModuleInterop --target es2022 \
        --module node16 --moduleResolution node16 types-of-semver.ts)
    echo "@types/semver $(sed -n 's/^ *"version": "\(.*\)",/\1/p' "$types/package.json"):" \
        'js/tests/types-of-semver.ts compiles'
fi
tools/make-js.sh directory "$work/package"
node tools/comparisons/node-suite.js "$work/tree" "$work/package" "$@"
