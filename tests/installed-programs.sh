#!/bin/sh
# Tests the Makefile. Needs cargo, gcc and python3.
#
# - When they build, and when they report an error instead.
# - A build that fails or is stopped leaves nothing.
# - What is installed works without anything else, and can be uninstalled.
set -eu
unset CDPATH
cd "$(dirname "$0")/.."
. tests/checkout.sh

# ---- what is built

# newer_than FILE: prints what was built after the file. cargo always writes its lists of sources,
# NAME.d.
newer_than() {
    find out/cargo/release out/lib -maxdepth 1 -type f ! -name '*.d' -newer "$1"
}

# Everything is built, but only once. The programs also run from a directory where CDPATH would lead
# `cd` elsewhere.
as_built() {
    ends 0 make
    has 'built out/cargo/release/semver-parser
built out/cargo/release/release-filter
built out/cargo/release/compare-ranges
built out/lib/libsemver_parser.so.1.0.0
built out/lib/libsemver_parser.a' stdout
    : > "$work/built"
    ends 0 make
    [ -z "$(newer_than "$work/built")" ] || fail "built again: $(newer_than "$work/built")"
    for name in semver-parser release-filter compare-ranges; do
        tests/runs.py --cargo "$name" "out/cargo/release/$name"
    done
    mkdir "$work/elsewhere"
    (cd "$work/elsewhere" && CDPATH=.:$work && export CDPATH && ends 0 make -C "$checkout")
}

# ---- what is installed

files="bin/compare-ranges
bin/release-filter
bin/semver-parser
include/semver_parser.h
lib/libsemver_parser.a
lib/libsemver_parser.so
lib/libsemver_parser.so.1
lib/libsemver_parser.so.1.0.0
lib/pkgconfig/semver_parser.pc
share/bash-completion/completions/compare-ranges
share/bash-completion/completions/release-filter
share/man/man1/compare-ranges.1
share/man/man1/release-filter.1
share/man/man1/semver-parser.1
share/man/man3/semver_parser.3
$(manuals share/man/man3 3)
share/man/man7/semver-ranges.7
share/zsh/site-functions/_compare-ranges
share/zsh/site-functions/_release-filter"

# install_into DIRECTORY ARGUMENT..: installs. This has to install exactly the files above, and the
# record that lists them.
install_into() {
    folder=$1
    shift
    (umask 077 && ends 0 "$@")
    sed -n 's/^    //p' "$work/stdout" > "$work/to-set"
    sed -i "/^installed /!d" "$work/stdout"
    has "$(echo "$files" | sed "s:^:installed $folder/:")" stdout
    holds "$folder" | grep -vx share/semver-parser/installed > "$work/list"
    has "$files" list
    [ -z "$(find "$folder" -type d ! -perm 755)" ] || fail "a directory of $folder isn't open to all"
}

installed() {
    prefix="$work/new/a prefix"
    install_into "$prefix" make install PREFIX="$prefix"
    for name in semver-parser release-filter compare-ranges; do cmp out/cargo/release/$name "$prefix/bin/$name"; done
    cmp rust/capi/include/semver_parser.h "$prefix/include/semver_parser.h"
    try_programs "$prefix/bin"
    try_example
    try_installed_library
    try_pages
    try_manuals
    install_into "$prefix" make install PREFIX="$prefix/"
    uninstalled "$prefix" make uninstall PREFIX="$prefix"
}

# uninstalled DIRECTORY COMMAND..: uninstalls. Only what was there before may be left.
uninstalled() {
    folder=$1
    shift
    ends 0 "$@"
    [ ! -e "$folder" ] || fail "$folder: $(find "$folder") is left"
}

# Both libraries export only the functions, and a program can be linked with either.
try_installed_library() {
    lib=$prefix/lib
    same_calls "$lib/libsemver_parser.a"
    same_calls -D "$lib/libsemver_parser.so"
    readelf -dW "$lib/libsemver_parser.so" > "$work/stdout"
    grep -q 'soname: \[libsemver_parser.so.1\]' "$work/stdout" && ! grep -q TEXTREL "$work/stdout" || fail 'the shared library isn'\''t as it should be'
    [ "$(nm -D --defined-only --with-symbol-versions "$lib/libsemver_parser.so" | grep -c '[a-z]@@SEMVER_PARSER_1\.0$')" = "$(functions_of_header | wc -l)" ] ||
        fail 'a function has another version'
    # What reads a range is compiled once for each dialect, so that it is fast.
    strip --strip-unneeded -o "$work/stripped" "$lib/libsemver_parser.so"
    [ "$(wc -c < "$work/stripped")" -le 600000 ] || fail 'the shared library is too large'
    readelf -lW "$lib/libsemver_parser.so" | grep GNU_STACK | grep -q ' RW ' || fail 'the stack of the shared library is executable'
    try_library -I "$prefix/include" "$lib/libsemver_parser.a"
    try_library -I "$prefix/include" -static -L "$lib" -lsemver_parser
    libraries=$lib
    try_library -I "$prefix/include" -L "$lib" -lsemver_parser
    libraries=''
    command -v pkg-config > /dev/null || { echo 'installed programs: no pkg-config, so its file is not tested' && return; }
    flags=$(PKG_CONFIG_PATH=$lib/pkgconfig pkg-config --cflags --libs semver_parser)
    libraries=$lib
    eval "try_library $flags"
    libraries=''
    [ "$(PKG_CONFIG_PATH=$lib/pkgconfig pkg-config --modversion semver_parser)" = "$(cat VERSION)" ] || fail 'pkg-config prints another version'
    header=rust/capi/include/semver_parser.h
    grep -q "define SEMVER_PARSER_VERSION \"$(cat VERSION)\"" $header || fail 'the header has another version'
}

# are_to_set FILE: the variables that have to be set for a prefix are these.
are_to_set() {
    sed 's/=.*//' "$1" > "$work/stdout"
    has 'export PATH
export PKG_CONFIG_PATH
export LD_LIBRARY_PATH' stdout
}

# With only the commands that are printed last, a shell finds the programs, and the example in C can
# be compiled and run.
try_example() {
    are_to_set "$work/to-set"
    printf '%s\n' "$(cat "$work/to-set")" 'command -v release-filter' > "$work/example"
    ends 0 env -i PATH=/usr/bin:/bin sh "$work/example"
    has "$prefix/bin/release-filter" stdout
    install_into "$work/plain" make install PREFIX="$work/plain"
    command -v pkg-config > /dev/null || { echo 'installed programs: no pkg-config, so the example is not tested' && return; }
    are_to_set "$work/to-set"
    printf '%s\n' "$(cat "$work/to-set")" 'make -s -C docs/examples/c clean out/check-ranges CC=cc' \
        'docs/examples/c/out/check-ranges < docs/examples/lines' > "$work/example"
    ends 1 env -i PATH=/usr/bin:/bin sh "$work/example"
    has "$(cat docs/examples/lines.npm)" stdout
    (eval "$(cat "$work/to-set")" && ends 0 make install PREFIX="$work/plain")
    ! grep -v '^installed ' "$work/stdout" || fail 'it says what to set, but that is set already'
    rm -rf "$work/plain"
}

# mandoc and groff lay out each page without a warning, and each has the version.
try_pages() {
    ! grep -LF "\"semver\\-parser $(cat VERSION)\"" "$prefix"/share/man/man?/* | grep . || fail 'a page lacks the version'
    same_options release-filter
    same_options compare-ranges
    command -v groff > /dev/null || { echo 'installed programs: no groff, so the pages are not laid out' && return; }
    for page in "$prefix"/share/man/man?/*; do groff -t -man -ww -z -Tutf8 "$page"; done > "$work/stdout" 2>&1
    [ ! -s "$work/stdout" ] || fail 'a page has an error'
    command -v mandoc > /dev/null || { echo 'installed programs: no mandoc, so the pages are not checked' && return; }
    mandoc -T lint -W warning "$prefix"/share/man/man?/* && mandoc -T lint "$prefix"/share/man/man3/* || fail 'mandoc finds an error in a page'
}

# A page says what its function returns, its errors, and whether threads may call it at the same
# time. A function that shares a page has a link to it.
try_manuals() {
    page=$prefix/share/man/man3/semver_parser_satisfies.3
    for part in NAME SYNOPSIS DESCRIPTION 'RETURN VALUE' ERRORS ATTRIBUTES 'SEE ALSO'; do grep -qx "\.SH $part" "$page" || fail "a page lacks $part"; done
    grep -q 'semver_parser_satisfies().*MT\\-Safe' "$page" && grep -q 'SEMVER_PARSER_INVALID_VERSION' "$page" || fail 'a page lacks something'
    [ "$(readlink "$prefix/share/man/man3/semver_parser_range_lowest_of.3")" = semver_parser_range_highest_of.3 ] || fail 'a page is not a link'
    of_type=$prefix/share/man/man3/semver_parser_status.3
    [ "$(readlink "$of_type")" = semver_parser_error.3 ] || fail 'the page of a type is not a link'
    grep -q 'SEMVER_PARSER_DIFFERENT_DIALECTS.* (6)' "$of_type" ||
        fail 'a page lacks the constants of its type'
}

# same_options PROGRAM: its page lists exactly the options that its help lists.
same_options() {
    "$prefix/bin/$1" --help | grep -o -e '--[a-z][a-z-]*' | LC_ALL=C sort -u > "$work/list"
    sed -n '/^\.SH OPTIONS/,/^\.SH EXIT/s/\\-/-/gp' "$prefix/share/man/man1/$1.1" | grep -o -e '--[a-z][a-z-]*' | LC_ALL=C sort -u |
        diff -u "$work/list" -
}

# Installs into a directory below another one, by a relative path, and where there are other files.
# Older files are replaced.
installed_elsewhere() {
    staged="$work/staged"
    install_into "$staged/usr" make install DESTDIR="$staged" PREFIX=/usr
    [ ! -s "$work/to-set" ] || fail 'it says what to set for a directory that nobody uses'
    told_prefix /usr "$staged/usr"
    DESTDIR=$staged uninstalled "$staged/usr" make uninstall PREFIX=/usr/
    (CDPATH=$work && export CDPATH && install_into "$checkout/here" make install PREFIX=here)
    told_prefix "$(echo "$checkout/here" | sed 's/ /\\ /')" "$checkout/here"
    (cd "$work/elsewhere" && uninstalled "$checkout/here" make -C "$checkout" uninstall PREFIX="$checkout/here")
    mkdir -p "$work/shared/bin" "$work/shared/lib" "$work/shared/share/man/man1"
    echo other | tee "$work/shared/bin/other" > "$work/shared/bin/semver-parser"
    ends 0 make install PREFIX="$work/shared"
    cmp out/cargo/release/semver-parser "$work/shared/bin/semver-parser"
    echo later > "$work/shared/lib/later"
    ends 0 make uninstall PREFIX="$work/shared"
    [ "$(holds "$work/shared")" = 'bin/other
lib/later' ] && [ -d "$work/shared/share/man/man1" ] && [ ! -e "$work/shared/include" ] || fail "$(find "$work/shared")"
    refuses "make: nothing is installed under $work/shared" make uninstall PREFIX="$work/shared"
}

# soname_is VERSION NUMBERS: with this version of the project, the shared library has this soname,
# and there is a link of that name.
soname_is() {
    lib=$work/later/lib soname=libsemver_parser.so.$2
    echo "$1" > VERSION
    ends 0 make install PREFIX="$work/later"
    readelf -dW "$lib/libsemver_parser.so" | grep -qF "soname: [$soname]" && [ "$(readlink "$lib/$soname")" = "libsemver_parser.so.$1" ] ||
        fail "version $1: another soname than $soname"
    uninstalled "$work/later" make uninstall PREFIX="$work/later"
}

# The soname has the first number of the version and, while that is 0, also the second.
sonames() {
    soname_is 0.12.3 0.12
    soname_is 1.0.0 1
    soname_is 10.4.2 10
    cp "$top/VERSION" VERSION
}

# The Python packages, with a link to the library, and their programs.
installed_for_python() {
    command -v python3 > /dev/null || { echo 'installed programs: no python3, so its package is not tested' && return; }
    ends 0 make install-python PREFIX="$work/python"
    tail -n 1 "$work/stdout" | grep -q "^    export PYTHONPATH=$work/python/" || fail "it doesn't say where the package is"
    package=$(dirname "$(find "$work/python" -name py.typed)")
    cmp python/semver_parser/__init__.py "$package/__init__.py"
    cmp "$work/python/lib/libsemver_parser.so.1.0.0" "$package/libsemver_parser.so.1"
    PYTHONPATH=$(dirname "$package") ends 0 python3 -c 'from semver_parser import Range'
    printf '{"lockfileVersion": 3, "packages": {"": {"dependencies": {"a": "^2"}}, "node_modules/a": {"version": "1.0.0"}}}' > "$work/lock.json"
    (cd / && ends 1 "$work/python/bin/check-lock-file" "$work/lock.json")
    has 'a 1.0.0 does not satisfy ^2, required by the project' stdout
    printf '{"dependencies": {"a": "^2"}}' > "$work/package.json"
    (cd / && ends 0 "$work/python/bin/compare-requirements" "$work/package.json" "$work/package.json")
    prefix=$work/python
    try_pages
    same_options check-lock-file
    same_options compare-requirements
    uninstalled "$work/python" make uninstall PREFIX="$work/python"
    mv python not-here
    refuses "make: there is no directory $checkout/python/semver_parser" make install-python PREFIX="$work/python"
    mv not-here python
}

# ---- what is rejected

# Directories that nothing can be installed into, and arguments that are invalid.
refused_arguments() {
    : > "$work/file"
    mkdir -p "$work/taken/bin/semver-parser"
    refuses "make: not a directory: $work/file" make install PREFIX="$work/file"
    refuses "make: not a directory: $work/file" make install PREFIX="$work/file/below"
    refuses "make: cannot write $work/taken/bin/semver-parser: it is a directory" make install PREFIX="$work/taken"
    [ -z "$(holds "$work/taken")" ] || fail 'something is installed before the error'
    refuses 'make: PREFIX is empty' make install PREFIX=
    ends 2 make unknown PREFIX="$work/one"
    rm -r out/lib
    refuses 'make: needs the command no-compiler (Debian: apt-get install gcc)' make install CC=no-compiler PREFIX="$work/one"
    stopped_while_compiling "$work/one" make install PREFIX="$work/one"
    make
    [ ! -e "$work/one" ] || fail 'something is installed before an error'
}

# ---- where nothing may be built

# as_another COMMAND..: runs a command as a user who may not write to the checkout. Anyone except
# root already runs it so.
as_another() {
    if [ "$(id -u)" = 0 ]; then setpriv --reuid=65534 --regid=65534 --clear-groups "$@"; else "$@"; fi
}

# In a checkout without write permission, what is built serves.
where_nothing_may_be_written() {
    [ "$(id -u)" = 0 ] || chmod -R a-w "$checkout"
    stub cargo 'exit 1'
    stub rustc 'echo /toolchain'
    ends 0 as_another make
    [ "$(id -u)" = 0 ] || chmod -R u+w "$checkout"
}

# In a checkout of another user root builds nothing, but installs what is built there.
where_root_may_not_build() {
    [ "$(id -u)" = 0 ] || { echo 'installed programs: not as root, so what root may not do is not tested' && return; }
    chown 65534 "$checkout"
    ends 0 make install PREFIX="$work/one"
    ends 0 make uninstall PREFIX="$work/one"
    touch "$checkout/rust/src/lib.rs"
    refuses "make: the Rust crate isn't built, and root builds nothing in a checkout of another user: run make as its owner, then sudo make install" make install PREFIX="$work/one"
    chown 0 "$checkout"
}

# cannot_make WHY: make names a tool that is missing or too old before anything is built.
cannot_make() {
    refuses "make: needs $1" env -u CARGO_HOME HOME="$work" PATH="$work/bin:$work/tools" \
        make -s out/cargo/release/semver-parser
}

# Without a linker, with a cargo that is too old, and without cargo, what isn't built is an error.
where_no_tool_is() {
    from='(rustup; Debian 12: apt-get install cargo-web; from Debian 13 on: apt-get install cargo)'
    mkdir "$work/tools"
    for tool in sh dirname readlink id find sed tr date nproc uname make env mktemp rm mkdir grep; do
        ln -s "$(command -v "$tool")" "$work/tools/$tool"
    done
    cannot_make 'a linker, the command cc (Debian: apt-get install gcc libc6-dev)'
    stub cargo 'echo cargo 1.78.0'
    cannot_make "cargo 1.79 or later, and the command cargo is 1.78.0 $from"
    rm "$work/bin/cargo" "$work/bin/rustc"
    cannot_make "the command cargo, 1.79 or later $from"
}

for tool in cargo cc python3; do
    command -v $tool > /dev/null || { echo "installed programs: no $tool, so nothing is tested" && exit; }
done
as_built
installed
installed_elsewhere
sonames
installed_for_python
refused_arguments
where_nothing_may_be_written
where_root_may_not_build
where_no_tool_is
echo 'installed programs: passed'
