#!/bin/sh
# Tests `make archive` and debian/: what the archive and the Debian packages contain, that they are
# reproducible, and that what is unpacked elsewhere runs, and can be used from C and Python. Needs
# cargo; dpkg doesn't install anything. Skips the Debian packages unless everything is installed
# that debian/control builds with, except cargo and rustc.
set -eu
unset CDPATH
cd "$(dirname "$0")/.."
. tests/checkout.sh

modules=lib/python3/dist-packages/semver_parser

# The archive, made again in another directory, is the same byte for byte.
archive_made_twice() {
    packages="$work/all packages"
    ends 0 make archive OUT="$packages"
    has "made $packages/$archive" stdout
    sleep 1
    (umask 077 && mkdir "$work/again" && cd "$work" && CDPATH=$work && export CDPATH && ends 0 make -C "$checkout" archive OUT="$work/again")
    cmp "$packages/$archive" "$work/again/$archive"
    [ "$(ls -A "$packages")" = "$archive" ] || fail 'more than the archive is made'
}

# The Debian packages, made in two directories, are the same byte for byte.
packages_made_twice() {
    for folder in "$packages" "$work/again"; do
        cp -R "$checkout" "$folder/source"
        (cd "$folder/source" && umask 077 && ends 0 dpkg-buildpackage -b -us -uc -d)
        rm -rf "$folder/source"
    done
    all="$development $library $python $checkers $programs"
    [ "$(cd "$packages" && echo *.deb)" = "$all" ] || fail 'other packages than these five are made'
    for file in $all; do cmp "$packages/$file" "$work/again/$file"; done
}

# The archive has one directory, and its files belong to root. What is in it works wherever it is
# unpacked.
archive_serves() {
    mkdir "$work/un packed"
    tar -C "$work/un packed" -xzf "$packages/$archive"
    [ "$(ls "$work/un packed")" = "${archive%.tar.gz}" ] || fail "the archive has more than its one directory"
    [ "$(tar --numeric-owner -tvzf "$packages/$archive" | awk '{ print $2 }' | sort -u)" = 0/0 ] ||
        fail 'a file of the archive does not belong to root'
    tar -tzf "$packages/$archive" | LC_ALL=C sort -c
    unpacked="$work/un packed/${archive%.tar.gz}"
    holds "$unpacked" | grep -v "^${modules%/*}/.*\.py$" > "$work/stdout"
    has "bin/check-lock-file
bin/compare-ranges
bin/compare-requirements
bin/release-filter
bin/semver-parser
include/semver_parser.h
lib/libsemver_parser.a
lib/libsemver_parser.so
lib/libsemver_parser.so.1
lib/libsemver_parser.so.1.0.0
lib/pkgconfig/semver_parser.pc
$modules/libsemver_parser.so.1
$modules/py.typed
share/bash-completion/completions/check-lock-file
share/bash-completion/completions/compare-ranges
share/bash-completion/completions/compare-requirements
share/bash-completion/completions/release-filter
share/doc/semver-parser-proved/LICENSE-APACHE
share/doc/semver-parser-proved/LICENSE-MIT
share/man/man1/check-lock-file.1
share/man/man1/compare-ranges.1
share/man/man1/compare-requirements.1
share/man/man1/release-filter.1
share/man/man1/semver-parser.1
share/man/man3/semver_parser.3
$(manuals share/man/man3 3)
share/man/man7/semver-ranges.7
share/zsh/site-functions/_check-lock-file
share/zsh/site-functions/_compare-ranges
share/zsh/site-functions/_compare-requirements
share/zsh/site-functions/_release-filter" stdout
    cmp LICENSE-APACHE "$unpacked/share/doc/semver-parser-proved/LICENSE-APACHE"
    are_as_installed "$unpacked" lib
    try_by_pkg_config "$unpacked/lib" ''
    try_python "$unpacked" ''
}

# are_as_installed DIRECTORY LIBRARIES: checks the modes, the functions of the libraries, and the
# programs, which are stripped.
are_as_installed() {
    same_calls "$1/$2/libsemver_parser.a"
    same_calls -D "$1/$2/libsemver_parser.so"
    for file in "$1"/bin/* "$1/$2/libsemver_parser.so"; do
        [ -z "$(nm "$file" 2> /dev/null)" ] || fail "$file isn't stripped"
    done
    [ -z "$(find "$1" -type d ! -perm 755)$(find "$1" ! -type l ! -type d ! -path '*/bin/*' ! -perm 644)" ] ||
        fail "a file or directory of $1 has another mode"
    has_modules "$1"
    try_programs "$1/bin"
}

# has_modules DIRECTORY: compares the modules of the Python package, file by file.
has_modules() {
    for file in $(cd python && find semver_parser -name '*.py'); do cmp "python/$file" "$1/${modules%/*}/$file"; done
}

# try_by_pkg_config DIRECTORY ROOT: a C program can be compiled with the flags that pkg-config
# prints, with the shared library and with the static one.
try_by_pkg_config() {
    command -v pkg-config > /dev/null || { echo 'packages: no pkg-config, so its file is not tested' && return; }
    flags=$(PKG_CONFIG_SYSROOT_DIR=$2 PKG_CONFIG_PATH=$1/pkgconfig pkg-config --cflags --libs semver_parser)
    libraries=$1
    eval "try_library $flags"
    libraries=''
    eval "try_library -static $flags"
}

# try_python DIRECTORY LIBRARIES: the package reads a version, with the library next to it, or with
# the one that the system finds in the directory.
try_python() {
    [ -s python/semver_parser/_versions.py ] && command -v python3 > /dev/null ||
        { echo 'packages: no python3, so the package for Python is not tested' && return; }
    ends 0 env PYTHONDONTWRITEBYTECODE=1 PYTHONPATH="$1/${modules%/*}" LD_LIBRARY_PATH="$2" python3 -c \
        'from semver_parser import Version; print(Version.parse("1.2.3-rc.4", dialect="npm"))'
    has 1.2.3-rc.4 stdout
    echo '{"lockfileVersion": 3, "packages": {}}' > "$work/lock.json"
    ends 0 env PYTHONDONTWRITEBYTECODE=1 LD_LIBRARY_PATH="$2" "$1/bin/check-lock-file" "$work/lock.json"
    ends 0 env PYTHONDONTWRITEBYTECODE=1 LD_LIBRARY_PATH="$2" "$1/bin/compare-requirements" --help
}

# field PACKAGE NAME TEXT: the field of the control file has to have this text.
field() {
    dpkg-deb -f "$packages/$1" "$2" > "$work/stdout"
    has "$3" stdout
}

# is_whole PACKAGE FILES..: unpacks a Debian package without installing it, and checks its files,
# apart from its documents, their sums and owners, and its version. `root` has the files then.
is_whole() {
    package=$1 name=${1%%_*} root="$work/${1%%_*}"
    dpkg-deb -R "$packages/$package" "$root"
    holds "$root" | grep -v "^DEBIAN/\|/dist-packages/.*\.py$" > "$work/stdout"
    has "$2" stdout
    (cd "$root" && md5sum --quiet -c DEBIAN/md5sums)
    [ "$(wc -l < "$root/DEBIAN/md5sums")" = "$(find "$root/usr" -type f | wc -l)" ] || fail 'a file has no sum'
    [ "$(dpkg-deb -c "$packages/$package" | awk '{ print $2 }' | sort -u)" = root/root ] ||
        fail 'a file of the package does not belong to root'
    find "$root" -name '*.gz' -exec gzip -t {} +
    grep -q 'deal in the' "$root/usr/share/doc/$name/copyright" || fail 'a licence is missing'
    gzip -dc "$root/usr/share/doc/$name/changelog.gz" | sed -n '$p' > "$work/stdout"
    has "$(tail -n 1 debian/changelog)" stdout
    field "$package" Package "$name"
    field "$package" Version "$(cat VERSION)"
    field "$package" Maintainer 'Rumtiqay maintainers <maintainers@users.noreply.rumtiqay.example>'
    cp -R "$root/usr" "$work/whole"
}

# What each package contains, depends on, and says about itself.
packages_have() {
    mkdir "$work/whole"
    arch=usr/lib/$triplet
    is_whole "$programs" 'usr/bin/compare-ranges
usr/bin/release-filter
usr/bin/semver-parser
usr/share/bash-completion/completions/compare-ranges
usr/share/bash-completion/completions/release-filter
usr/share/doc/semver-parser-proved/changelog.gz
usr/share/doc/semver-parser-proved/copyright
usr/share/lintian/overrides/semver-parser-proved
usr/share/man/man1/compare-ranges.1.gz
usr/share/man/man1/release-filter.1.gz
usr/share/man/man1/semver-parser.1.gz
usr/share/man/man7/semver-ranges.7.gz
usr/share/zsh/vendor-completions/_compare-ranges
usr/share/zsh/vendor-completions/_release-filter'
    asks_for_libc "$programs" "$root"/usr/bin/*
    is_whole "$library" "$arch/libsemver_parser.so.1
$arch/libsemver_parser.so.1.0.0
usr/share/doc/libsemver-parser1/changelog.gz
usr/share/doc/libsemver-parser1/copyright"
    asks_for_libc "$library" "$root/$arch/libsemver_parser.so.1"
    cp "$root/DEBIAN/shlibs" "$work/stdout"
    has 'libsemver_parser 1 libsemver-parser1 (>= 1.0.0)' stdout
    calls=$(functions_of_header)
    cp "$root/DEBIAN/symbols" "$work/stdout"
    has "libsemver_parser.so.1 libsemver-parser1 #MINVER#
* Build-Depends-Package: libsemver-parser-dev
 SEMVER_PARSER_1.0@SEMVER_PARSER_1.0 1.0.0
$(echo "$calls" | sed 's/.*/ &@SEMVER_PARSER_1.0 1.0.0/')" stdout
    is_whole "$development" "usr/include/semver_parser.h
$arch/libsemver_parser.a
$arch/libsemver_parser.so
$arch/pkgconfig/semver_parser.pc
usr/share/doc/libsemver-parser-dev/changelog.gz
usr/share/doc/libsemver-parser-dev/copyright
usr/share/man/man3/semver_parser.3.gz
$(manuals usr/share/man/man3 3.gz)"
    field "$development" Depends 'libsemver-parser1 (= 1.0.0)'
    is_whole "$python" "usr/$modules/py.typed
usr/share/doc/python3-semver-parser/changelog.gz
usr/share/doc/python3-semver-parser/copyright"
    field "$python" Depends 'python3 (>= 3.9), libsemver-parser1 (>= 1.0.0)'
    for script in "$root"/DEBIAN/p*; do sh -n "$script" && [ -x "$script" ] || fail "$script can't be run"; done
    is_whole "$checkers" 'usr/bin/check-lock-file
usr/bin/compare-requirements
usr/share/bash-completion/completions/check-lock-file
usr/share/bash-completion/completions/compare-requirements
usr/share/doc/semver-parser-checkers/changelog.gz
usr/share/doc/semver-parser-checkers/copyright
usr/share/man/man1/check-lock-file.1.gz
usr/share/man/man1/compare-requirements.1.gz
usr/share/zsh/vendor-completions/_check-lock-file
usr/share/zsh/vendor-completions/_compare-requirements'
    field "$checkers" Depends "python3 (>= 3.9), python3-semver-parser (= $version)"
}

# asks_for_libc PACKAGE FILE..: requires no newer C library than its files do.
asks_for_libc() {
    package=$1
    shift
    newest=$(cat "$@" | grep -ao 'GLIBC_[0-9][0-9.]*' | sed 's/GLIBC_//' | sort -uV | tail -n 1)
    dpkg-deb -f "$packages/$package" Depends | tr , '\n' | sed 's/^ //; /^libgcc-s1/d' > "$work/stdout"
    has "libc6 (>= $newest)" stdout
}

# All packages together, as if they were installed below another root.
packages_serve() {
    whole="$work/whole/usr"
    sed -n 's/^prefix=//p; s/^libdir=//p' "$whole/lib/$triplet/pkgconfig/semver_parser.pc" > "$work/stdout"
    has "/usr
\${prefix}/lib/$triplet" stdout
    are_as_installed "$whole" lib/$triplet
    try_by_pkg_config "$whole/lib/$triplet" "$work/whole"
    try_python "$whole" "$whole/lib/$triplet"
}

# apt would install the packages by the command of README, and refuses one alone that needs another.
apt_installs_all() {
    grep -qF '`apt install ../*semver-parser*.deb`' "$top/README.md" ||
        fail 'README has another command for apt'
    dpkg -s libc6 libgcc-s1 python3 > /dev/null 2>&1 ||
        { echo "packages: Debian's python3 is not installed, so apt is not asked" && return; }
    ends 0 apt-get --simulate install "$packages"/*semver-parser*.deb
    sed -n 's/^Inst \([^ ]*\) .*/\1/p' "$work/stdout" | LC_ALL=C sort > "$work/list"
    has 'libsemver-parser-dev
libsemver-parser1
python3-semver-parser
semver-parser-checkers
semver-parser-proved' list
    ends 100 apt-get --simulate install "$packages/$checkers"
}

# lintian, if it is installed, has nothing to report that isn't explained in a comment. What looks
# like a misspelt word in the code of a program isn't one.
lint() {
    command -v lintian > /dev/null || { echo 'packages: no lintian, so it is not asked' && return; }
    ends 0 lintian --allow-root -EI --pedantic --suppress-tags spelling-error-in-binary --fail-on error,warning,info,pedantic "$packages"/*.changes
}

# Nothing is made if the time isn't known, a tool is missing, there is no directory to write to, or
# make is stopped.
refused() {
    unset SOURCE_DATE_EPOCH
    why='make: cannot tell the time of the last commit: set SOURCE_DATE_EPOCH to seconds since 1970'
    GIT_DIR=$work/none refuses "$why" make archive OUT="$work/none"
    SOURCE_DATE_EPOCH=today refuses "$why" make archive OUT="$work/none"
    export SOURCE_DATE_EPOCH=1
    : > "$work/file"
    refuses "make: not a directory: $work/file" make archive OUT="$work/file"
    rm -r out/lib
    CC=no-compiler refuses 'make: needs the command no-compiler (Debian: apt-get install gcc)' make archive OUT="$work/none"
    stopped_while_compiling "$work/none" make archive OUT="$work/none"
}

for tool in cargo cc strip; do
    command -v "$tool" > /dev/null || { echo "packages: no $tool, so they are not tested" && exit; }
done
version=$(cat VERSION)
architecture=$(dpkg --print-architecture 2> /dev/null || uname -m) triplet=$(cc -print-multiarch)
archive=semver-parser-$version-linux-$(uname -m).tar.gz programs=semver-parser-proved_${version}_$architecture.deb
library=libsemver-parser1_${version}_$architecture.deb development=libsemver-parser-dev_${version}_$architecture.deb
python=python3-semver-parser_${version}_all.deb checkers=semver-parser-checkers_${version}_all.deb
stub rt 'echo "this was to be proved: $PWD"; exit 1'
export SOURCE_DATE_EPOCH=1700000000
archive_made_twice
archive_serves
grep -q "($version)" debian/changelog && grep -q " $version\$" debian/*.symbols || fail 'debian/ has another version'
if dpkg-checkbuilddeps -d "$(sed -n 's/^Build-Depends: //p' debian/control | sed 's/cargo ([^)]*), //; s/, rustc ([^)]*)//')" 2> /dev/null; then
    packages_made_twice
    packages_have
    packages_serve
    apt_installs_all
    lint
else
    echo "packages: what debian/control builds with is missing, so Debian's packages are not tested"
fi
refused
echo 'packages: passed'
