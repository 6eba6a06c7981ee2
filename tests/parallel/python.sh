#!/bin/sh
# Tests the Python package:
#
# - its unit tests, including the table of cases, with the shared library that `make install`
#   installs, and with the one in the wheel
# - its types, if mypy is installed
# - what the build backend makes: the wheel, the archive of sources, and what `pip install -e .`
#   installs, each in its own virtual environment without a network
#
# It installs nothing, and isn't part of the gate. Needs cargo, python3 and a C compiler (Debian:
# apt-get install cargo gcc python3 python3-venv). The variable PYTHON can name another python3.
set -eu
top=$(dirname -- "$(dirname -- "$(dirname -- "$(readlink -f -- "$0")")")")
. "$top/tools/built.sh"
python=${PYTHON:-python3}
for tool in cargo "$python" "${CC:-cc}"; do
    command -v "${tool%% *}" > /dev/null || refuse "needs $tool: apt-get install cargo gcc python3"
done
begin
library=out/lib/libsemver_parser.so.$(cat "$top/VERSION")
again "$library" || refuse 'cannot build the C library'
cd "$top/python"
unset PYTHONPATH
export PYTHONDONTWRITEBYTECODE=1

# passes_with LIBRARY: the unit tests have to pass with this library.
passes_with() {
    SEMVER_PARSER_LIBRARY=$1 "$python" -W error -m unittest discover --start-directory tests \
        --top-level-directory . || refuse "the Python package failed with $1"
}
passes_with "$top/$library"

# ---- its types

if command -v mypy > /dev/null; then
    MYPYPATH=. mypy --config-file ../pyproject.toml --cache-dir "$work/types" semver_parser ../docs/examples/python/*.py ||
        refuse 'the Python package has wrong types'
    cat > "$work/wrong.py" << 'END'
import semver_parser
from semver_parser import Range, SemverError, Version, crate_comparators, precedence, satisfies, terms
satisfies("1.0.0", "1", dialect="nmp")
satisfies("1.0.0", "1")
tag: str = Range("1", dialect="npm").highest(["1.0.0"])
Range("1", dialect="npm").filter(["1.0.0"], invalid="ignore")
precedence("1.0.0")
crate_comparators("1", dialect="npm")
Version(1, 2, 3).majr
SemverError("1", "npm").reason == "leading-zeros"
semver_parser.parse_version
terms("1")
terms("1", dialect="npm")[0].version.major + 1
terms("1", dialect="npm")[0].upper.start
END
    ! MYPYPATH=. mypy --config-file ../pyproject.toml --cache-dir "$work/types" "$work/wrong.py" > "$work/wrong" || refuse 'mypy finds no error'
    [ "$(grep -c ': error: ' "$work/wrong")" = 14 ] || refuse "mypy finds other errors: $(cat "$work/wrong")"
else
    echo 'mypy: skipped, since it is not there (Debian: apt-get install mypy python3-typeshed)'
fi

# ---- the wheel

# installed ARGUMENT..: installs with pip into a new environment, without a network.
installed() {
    rm -rf "$work/environment"
    "$python" -m venv "$work/environment"
    "$work/environment/bin/python" -m pip --isolated --disable-pip-version-check install --quiet \
        --no-index --no-cache-dir "$@" || refuse "pip does not install $*"
}

# works DIRECTORY: what was installed has a package, below the directory, and its programs work from
# another directory.
works() {
    directory=$1
    cp "$top/python/cases/package-lock.json" "$work/lock.json"
    cd "$work"
    said=$(env -u SEMVER_PARSER_LIBRARY "$work/environment/bin/python" -W error -c \
        'import semver_parser as it; print(it.__file__, it.Range("^1.2", dialect="npm").highest(["1.2.0", "1.9.0"]))')
    [ "$said" = "$(find "$directory" -path '*/semver_parser/__init__.py') 1.9.0" ] ||
        refuse "the installed package said $said"
    status=0
    env -u SEMVER_PARSER_LIBRARY "$work/environment/bin/check-lock-file" --quiet --format tsv lock.json > lines 2> told || status=$?
    [ "$status" = 1 ] && cmp lines "$top/python/cases/package-lock.expected" || refuse 'check-lock-file is wrong'
    env -u SEMVER_PARSER_LIBRARY "$work/environment/bin/compare-requirements" --help > lines
    cd "$top/python"
}

# has_tag FILE PLATFORM NAME: a wheel of this library, on this system, has this tag and file.
has_tag() {
    rm -rf "$work/tagged" && mkdir "$work/tagged"
    made=$(_PYTHON_HOST_PLATFORM=${2-} python3 "$top/tools/make-wheel.py" "$1" "$work/tagged")
    [ "${made%"-py3-none-$3.whl"}" = "semver_parser_proved-$(cat "$top/VERSION")" ] || refuse "a wheel has the name $made"
    python3 -m zipfile -l "$work/tagged/$made" | grep -q "^semver_parser/$4 " || refuse "$made has no $4"
}

# Wheels for other systems: by the header of the file, or else by sysconfig.
tags() {
    cp "$top/$library" "$work/other.so"
    printf '\267\0' | dd of="$work/other.so" bs=1 seek=18 conv=notrunc 2> "$work/told"
    of_glibc=$(readelf -V "$work/other.so" | grep -o 'GLIBC_[0-9.]*' | sort -uV | tail -n 1 | tr . _)
    has_tag "$work/other.so" '' "manylinux_${of_glibc#GLIBC_}_aarch64" 'libsemver_parser\.so\.1'
    # Python's own build for macOS may be for two processors, and for an older system than rustc
    # supports.
    printf '\317\372\355\376\014\0\0\001' > "$work/other.dylib"
    has_tag "$work/other.dylib" macosx-10.9-universal2 macosx_11_0_arm64 'libsemver_parser\.dylib'
    has_tag "$work/other.dylib" macosx-14.2-arm64 macosx_14_2_arm64 'libsemver_parser\.dylib'
    printf '\317\372\355\376\007\0\0\001' > "$work/other.dylib"
    has_tag "$work/other.dylib" macosx-10.9-universal2 macosx_10_12_x86_64 'libsemver_parser\.dylib'
    readelf -dW "$work/other.so" | grep -q 'NEEDED.*\[libc\.so\.6\]' ||
        refuse 'the library needs no C library'
    sed 's/libc\.so\.6/libd.so.6/' "$work/other.so" > "$work/unusual.so"
    has_tag "$work/unusual.so" '' linux_aarch64 'libsemver_parser\.so\.1'
    printf 'MZ' > "$work/other.dll"
    has_tag "$work/other.dll" win-amd64 win_amd64 'semver_parser\.dll'
    status=0
    python3 "$top/tools/make-wheel.py" "$work/told" "$work" 2> "$work/lines" || status=$?
    [ "$status" = 1 ] && grep -q '^make-wheel: .* is not a shared library$' "$work/lines" || refuse "make-wheel: $(cat "$work/lines")"
}

# is_described_alike WHEEL OTHER: two wheels have the same metadata, licence files and programs.
is_described_alike() {
    python3 - "$1" "$2" << 'END'
import email, sys, zipfile

def described(wheel):
    archive = zipfile.ZipFile(wheel)
    info = next(it for it in archive.namelist() if it.endswith(".dist-info/METADATA"))[: -len("METADATA")]
    message = email.message_from_bytes(archive.read(info + "METADATA"))
    fields = sorted((name, value.replace(" ;", ";").replace("'", '"')) for name, value in message.items())
    licences = [archive.read(info + value) for name, value in fields if name == "License-File"]
    return fields, message.get_payload(), licences, archive.read(info + "entry_points.txt").split()

one, other = map(described, sys.argv[1:])
assert one == other, (one[0], other[0], one[3], other[3])
assert len(one[2]) == 2, one[0]
END
}

# has_same_project: the reader of pyproject.toml for Python 3.9 returns the same as tomllib.
has_same_project() {
    (cd "$top/tools" && python3 -c 'import sys, tomllib
from python_backend.project import TOP, tables_of
text = (TOP / "pyproject.toml").read_text()
assert tables_of(text) == tomllib.loads(text)')
}

# Wheels made by setuptools have the same metadata.
described_by_setuptools() {
    mkdir "$work/source"
    cp -RL "$top/python" "$top"/LICENSE-* "$work/source"
    sed 's/^requires = .*/requires = ["setuptools"]/; /^backend-path/d
        s/^build-backend = .*/build-backend = "setuptools.build_meta"/' \
        "$top/pyproject.toml" > "$work/source/pyproject.toml"
    printf '%s\n' '[tool.setuptools]' 'license-files = ["LICENSE-*"]' \
        'packages = ["semver_parser"]' 'package-dir = { "" = "python" }' '[tool.setuptools.dynamic]' \
        'version = { attr = "semver_parser.__version__" }' >> "$work/source/pyproject.toml"
    "$python" -m pip --isolated --disable-pip-version-check wheel --quiet --no-index --no-deps \
        --no-build-isolation --no-cache-dir --wheel-dir "$work/by-setuptools" "$work/source"
    is_described_alike "$wheel" "$work"/by-setuptools/*.whl
}

# pip_says WHY: with only the commands in `tools`, pip prints one sentence that says what is wrong.
pip_says() {
    status=0
    env -u CARGO_HOME HOME="$work" PATH="$work/tools" "$work/environment/bin/python" -m pip \
        --isolated --disable-pip-version-check wheel --no-index --no-cache-dir \
        --wheel-dir "$work/none" "$top" > "$work/told" 2>&1 || status=$?
    [ "$status" = 1 ] && grep -q "^ *semver-parser-proved: the library is $1" "$work/told" &&
        grep -q '\[1 lines of output\]' "$work/told" || refuse "instead of $1: $(cat "$work/told")"
}

# ends_without_tools: without cargo, with one that is too old, and without a linker.
ends_without_tools() {
    mkdir "$work/tools"
    pip_says "built by the command cargo, 1\.79 or later, which isn't there"
    for tool in cargo rustc; do
        printf '#!/bin/sh\necho cargo 1.78.0\n' > "$work/tools/$tool"
        chmod +x "$work/tools/$tool"
    done
    pip_says 'built by cargo 1\.79 or later, and the command cargo is 1\.78\.0'
    printf '#!/bin/sh\necho cargo 1.79.0\n' > "$work/tools/cargo"
    pip_says "linked by the command cc, which isn't there"
}

if ! "$python" -c 'import ensurepip' 2> /dev/null; then
    echo 'wheel: skipped, since ensurepip is not there (Debian: apt-get install python3-venv)'
    exit
fi
OUT=$work/wheels again wheel
wheel=$(echo "$work"/wheels/*.whl)
case ${wheel##*/} in
"semver_parser_proved-$(cat "$top/VERSION")-py3-none-manylinux_2_"*"_$(uname -m).whl") ;;
*) refuse "the wheel has the name ${wheel##*/}" ;;
esac
OUT=$work/wheels-again again wheel
cmp "$wheel" "$work"/wheels-again/*.whl
tags
installed "$wheel"
works "$work/environment"
"$work/environment/bin/python" -m pip --isolated show --files semver-parser-proved > "$work/lines" 2> /dev/null
grep -q "^ *semver_parser/libsemver_parser\.so\.[0-9.]*$" "$work/lines" || refuse 'the wheel has no library'
"$work/environment/bin/python" -c 'from importlib.metadata import requires
assert requires("semver-parser-proved") == ["PyYAML; extra == \"pnpm\""], requires("semver-parser-proved")'
passes_with "$(find "$work/environment" -name 'libsemver_parser.so.*')"
ends_without_tools

# The archive of sources, made twice, and the wheel that is built from it.
for directory in sources sources-again; do
    mkdir "$work/$directory"
    "$python" "$top/tools/make-wheel.py" --sdist "$work/$directory" > "$work/told"
done
sources=$(echo "$work"/sources/*.tar.gz)
[ "${sources##*/}" = "semver_parser_proved-$(cat "$top/VERSION").tar.gz" ] ||
    refuse "the archive has the name ${sources##*/}"
cmp "$sources" "$work"/sources-again/*.tar.gz
"$python" -m pip --isolated --disable-pip-version-check wheel --quiet --no-index --no-cache-dir \
    --wheel-dir "$work/of-sources" "$sources" || refuse 'pip builds no wheel of the archive of sources'
cmp "$wheel" "$work"/of-sources/*.whl

# An editable installation, in a copy of the repository: a change of a module takes effect at once.
mkdir "$work/a clone" && tar -C "$work/a clone" --strip-components 1 -xzf "$sources"
installed --editable "$work/a clone"
works "$work/a clone"
echo 'answer = 42' >> "$work/a clone/python/semver_parser/_library.py"
(cd / && "$work/environment/bin/python" -c 'from semver_parser._library import answer')

if python3 -c 'import tomllib' 2> /dev/null; then
    has_same_project
else
    echo 'pyproject.toml: not compared, since python3 is older than 3.11'
fi
if "$python" -c 'import setuptools, wheel' 2> /dev/null; then
    described_by_setuptools
else
    echo 'metadata: not compared, since setuptools and wheel are not there'
fi
echo 'Python package: passed'
