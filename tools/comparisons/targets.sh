# Tests rust/ for other processors; sourced by tools/compare.sh. It runs the rows, the library tests
# and the tests of failing allocations, with overflow checks and Debian's std, for i686, which this
# processor runs, and with qemu for aarch64 and for s390x, which is big-endian. It skips s390x if its
# compiler isn't installed, or if Debian has no std for it in the version of rustc-web: Debian 12 has
# one for rustc-web 1.85, but not for the later versions. It runs `cargo check` for each other target
# that has a std. The packages are unpacked into a temporary directory.
for tool in /usr/bin/rustc=rustc-web aarch64-linux-gnu-gcc=gcc-aarch64-linux-gnu \
    i686-linux-gnu-gcc=gcc-i686-linux-gnu qemu-aarch64=qemu-user /lib/ld-linux.so.2=libc6-i386; do
    command -v "${tool%=*}" > /dev/null || {
        echo "needs ${tool%=*} (Debian: apt-get install ${tool#*=})" >&2
        exit 2
    }
done
folder=$(mktemp -d)
trap 'rm -rf "$folder"' EXIT
trap 'exit 2' HUP INT TERM
export RUSTC=/usr/bin/rustc CARGO_NET_OFFLINE=true
version=$(dpkg-query --show --showformat '${Version}' rustc-web)
"$RUSTC" --version

# apt_of ARCHITECTURE WORD..: runs apt-get for another architecture, with its own lists.
apt_of() {
    architecture=$1
    shift
    mkdir -p "$folder/$architecture/lists/partial" "$folder/$architecture/archives/partial"
    : > "$folder/$architecture/status"
    apt-get -qq -o APT::Architecture="$architecture" -o APT::Architectures="$architecture" \
        -o Dir::State="$folder/$architecture" -o Dir::State::status="$folder/$architecture/status" \
        -o Dir::Cache="$folder/$architecture" -o APT::Sandbox::User=root "$@"
}

# unpack ARCHITECTURE TARGET: puts the std for a target next to this machine's. Returns whether Debian
# has it. If a list can't be updated, the others are used.
unpack() {
    apt_of "$1" update || :
    (cd "$folder" && apt_of "$1" download "libstd-rust-web-dev=$version") &&
        dpkg -x "$folder"/libstd-rust-web-dev_*_"$1".deb "$folder/sysroot-$2"
}

# pass TARGET COMPILER [RUNNER..]: runs all tests of the crate.
pass() {
    name=$(echo "$1" | tr a-z- A-Z_) target=$1 compiler=$2
    shift 2
    echo "$target:"
    env "CARGO_TARGET_${name}_LINKER=$compiler" "CARGO_TARGET_${name}_RUNNER=$*" RUNNER="$*" \
        RUSTFLAGS="--sysroot $folder/sysroot-$target/usr" \
        cargo test --quiet --target "$target" --target-dir "$folder/target" --test proved --test api
}

unpack i386 i686-unknown-linux-gnu
pass i686-unknown-linux-gnu i686-linux-gnu-gcc env
unpack arm64 aarch64-unknown-linux-gnu
pass aarch64-unknown-linux-gnu aarch64-linux-gnu-gcc qemu-aarch64 -L /usr/aarch64-linux-gnu
if ! command -v s390x-linux-gnu-gcc > /dev/null; then
    echo 'compare: no s390x-linux-gnu-gcc (Debian: gcc-s390x-linux-gnu), so s390x is skipped'
elif unpack s390x s390x-unknown-linux-gnu; then
    pass s390x-unknown-linux-gnu s390x-linux-gnu-gcc qemu-s390x -L /usr/s390x-linux-gnu
else
    echo "compare: Debian has no libstd-rust-web-dev $version for s390x, so s390x is skipped"
fi
unset RUSTC
here=$(rustc -vV | sed -n 's/^host: //p')
for target in "$(rustc --print sysroot)"/lib/rustlib/*-*-*/lib; do
    target=$(basename "$(dirname "$target")")
    [ "$target" = "$here" ] || {
        echo "cargo check for $target:"
        cargo check --quiet --target "$target" --target-dir "$folder/target"
    }
done
