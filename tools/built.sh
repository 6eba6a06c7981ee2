# Shared by the Makefile, ./semver-parser and the tests. Before they source this file, they set
# `top` to the absolute path of the repository. The file unsets CDPATH, so that `cd` doesn't look
# elsewhere.
unset CDPATH
# The directory for temporary files, a file that isn't complete yet, and whether a command runs in
# a session of its own.
work='' half='' running=''

# refuse WHY..: prints why in one line, and exits with 2.
refuse() {
    echo "${self:-${0##*/}}: $*" >&2
    exit 2
}

# begin: makes the directory `work`. It is removed when the script ends or is stopped.
begin() {
    trap let_go EXIT
    for signal in HUP INT PIPE QUIT TERM; do
        trap "trap '' HUP INT PIPE QUIT TERM
            when_stopped; let_go; trap - EXIT $signal; kill -s $signal $$" "$signal"
    done
    work=$(mktemp -d) || refuse 'cannot make a directory for temporary files'
}

# What a script does when a signal stops it, before all else. It may define this anew.
when_stopped() {
    :
}

let_go() {
    stop
    rm -rf -- "$half" "$work" 2> /dev/null || rm -rf -- "$half" "$work"
}

# start COMMAND..: starts a command without input in a session of its own. Ctrl-C at a terminal
# doesn't reach that, but `stop` ends all of it.
start() {
    running=yes
    setsid "$@" < /dev/null &
    running=$!
}

# stop: ends what `start` began, and all that this began, within two seconds. Most of that is for
# `rt`, which cleans up after SIGINT only.
stop() {
    [ "$running" ] || return 0
    ever=${!-}
    end_by INT 10 || end_by TERM 3 || end_by KILL 20 || :
    wait "${!-}" 2> /dev/null || :
    running=''
}

# end_by SIGNAL TENTHS: sends a signal to all processes that those in `ever` began, and SIGKILL also
# to those that are begun meanwhile. Returns whether they end within some tenths of a second.
end_by() {
    hold
    kill -s "$1" $left 2> /dev/null || :
    kill -s CONT $left 2> /dev/null || :
    for tenth in $(seq "$2"); do
        left=$(begun_by '' $ever)
        [ "$left" ] || return 0
        ever="$ever $left"
        [ "$1" != KILL ] || kill -s KILL $left 2> /dev/null || :
        sleep 0.1
    done
    return 1
}

# hold: halts all processes that those in `ever` began, until none is left that could begin another.
# If one were ended before what it had just begun is known, and that is in a session of its own,
# nothing would lead to it any more. `left` are all these processes.
hold() {
    for turn in $(seq 20); do
        left=$(begun_by '' $ever)
        ever="$ever $left"
        moving=$(begun_by T $ever)
        [ "$moving" ] || return 0
        kill -s STOP $moving 2> /dev/null || :
    done
}

# begun_by STATE PROCESS..: prints these processes, those in their sessions, and all that these
# began, as far as they haven't ended and aren't in a state (T if they are halted).
begun_by() {
    without=$1
    shift
    sed 's/^\([0-9]*\) (.*) /\1 /' /proc/[0-9]*/stat 2> /dev/null |
        awk -v without="$without" -v numbers="$*" '
            BEGIN { split(numbers, list); for (at in list) wanted[list[at]] }
            $2 != "Z" {
                state[$1] = $2
                parent[$1] = $3
                if ($1 in wanted || $5 in wanted) found[$1]
            }
            END {
                do {
                    more = 0
                    for (it in parent)
                        if (!(it in found) && parent[it] in found) more = found[it] = 1
                } while (more)
                for (it in found) if (state[it] != without) print it
            }'
}

# beside COMMAND..: runs a command as `start` does, and waits for it.
beside() {
    beside=0
    start "$@"
    wait "$running" || beside=$?
    running=''
    return "$beside"
}

# again GOAL..: runs make for goals, with the variables of the environment.
again() {
    beside env MAKEFLAGS= make -s --no-print-directory -C "$top" "$@"
}

# is_built FILE: returns whether no source in Rust is newer than a file that cargo built.
is_built() {
    [ -s "$1" ] && newer=$(find "$top/Cargo.toml" "$top/rust" -name target -prune -o \
        -type f ! -name Cargo.lock -newer "$1" -print 2> /dev/null) && [ -z "$newer" ]
}

# build ARGUMENT..: runs cargo build with the arguments, and returns 2 if it fails. The files that
# it makes don't contain the paths of the repository and of the toolchain, so they don't depend on
# these.
build() {
    may_ask || return 0
    may_cargo
    may_link
    unset MAKEFLAGS MFLAGS
    flags=$(printf '%s\037' ${RUSTFLAGS-} "--remap-path-prefix=$top=." \
        "--remap-path-prefix=$(rustc --print sysroot)/lib/rustlib/src/rust=/rust")
    beside env -u RUSTFLAGS CARGO_ENCODED_RUSTFLAGS="${flags%?}" cargo build --quiet --release \
        --offline --manifest-path "$top/Cargo.toml" --target-dir "$top/out/cargo" "$@" || return 2
}

# may_cargo: exits if there is no cargo, or one that is too old.
may_cargo() {
    from='(rustup; Debian 12: apt-get install cargo-web; from Debian 13 on: apt-get install cargo)'
    command -v cargo > /dev/null || refuse "needs the command cargo, $(oldest) or later $from"
    has_cargo ||
        refuse "needs cargo $(oldest) or later, and the command cargo is $found $from"
}

# has_cargo: returns whether there is a cargo that isn't too old. `found` is its version.
has_cargo() {
    command -v cargo > /dev/null || return
    found=$(cargo --version 2> /dev/null | sed -n 's/^cargo \([^ ]*\).*/\1/p')
    minor=$(echo "$found" | sed -n 's/^1\.\([0-9]*\)\..*/\1/p')
    [ -z "$minor" ] || [ "$minor" -ge "$(oldest | sed 's/1\.//')" ]
}

# oldest: prints the oldest cargo that can build everything, as cargo itself reads it.
oldest() {
    sed -n 's/^rust-version = "\(.*\)"$/\1/p' "$top/rust/capi/Cargo.toml"
}

# may_link: exits if rustc would find no linker.
may_link() {
    has_linker || refuse 'needs a linker, the command cc (Debian: apt-get install gcc libc6-dev)'
}

# has_linker: returns whether rustc finds a linker. It runs cc, unless a variable or a setting of
# cargo names another command.
has_linker() {
    settings=${CARGO_HOME:-${HOME-}/.cargo}
    command -v cc > /dev/null || env | grep -q 'LINKER=\|linker=' ||
        grep -qs '^ *linker' "$settings/config.toml" "$settings/config"
}

# may_ask: returns whether cargo may write to the repository. If not, and if something isn't built,
# exits.
may_ask() {
    is_owner && [ -w "$top" ] || is_built "$top/out/cargo/release/semver-parser" ||
        may_build 'the Rust crate'
    is_owner && [ -w "$top" ]
}

# is_owner: returns false for root in another user's checkout, where root must not build anything.
is_owner() {
    [ "$(id -u)" != 0 ] || [ -O "$top" ]
}

# may_build NAME: exits if a build isn't possible, or would leave root's files among another user's.
may_build() {
    is_owner || refuse "$1 isn't built, and root builds nothing in a" \
        'checkout of another user: run make as its owner, then sudo make install'
    for folder in "$top" "$top"/out "$top"/out/*/; do
        [ ! -e "$folder" ] || [ -w "$folder" ] ||
            refuse "$1 isn't built, and cannot be: $folder may not be written to"
    done
}

# may_write DIRECTORY: exits if a directory, or the nearest one above it that exists, isn't
# writable.
may_write() {
    nearest=$1
    while [ ! -e "$nearest" ]; do nearest=$(dirname -- "$nearest"); done
    [ -d "$nearest" ] || refuse "not a directory: $nearest"
    [ -w "$nearest" ] || refuse "cannot write to $nearest"
}

# put TREE PATH: copies a file or link of a tree into the directory `to`, under a temporary name
# first.
put() {
    half=$to/${2%/*}/.${2##*/}.$$
    { cp -P -- "$1/$2" "$half" && mv -fT -- "$half" "$to/$2"; } 2> /dev/null ||
        refuse "cannot write $to/$2"
}

# put_all TREE: copies all files of a tree into the directory `to`. First it writes a record: a line
# for each file, a line that ends with a slash for each directory that is made, and the lines of an
# earlier record. So `remove_all` removes nothing else, even if an older version had other files.
record=share/semver-parser/installed
put_all() {
    mkdir -p "$1/${record%/*}" && : > "$1/$record"
    (cd "$1" && find . -type d) > "$work/folders"
    find "$1" ! -type d -printf '%P\n' | LC_ALL=C sort > "$work/files"
    while read -r it; do
        may_write "$to/$it" && [ -e "$to/$it" ] || echo "$it/"
    done < "$work/folders" > "$work/record"
    while read -r it; do
        [ ! -d "$to/$it" ] || [ -L "$to/$it" ] || refuse "cannot write $to/$it: it is a directory"
    done < "$work/files"
    [ ! -f "$to/$record" ] || cat "$to/$record" >> "$work/record"
    LC_ALL=C sort -u "$work/record" "$work/files" > "$1/$record"
    while read -r it; do mkdir -p -- "$to/$it"; done < "$work/folders"
    put "$1" "$record"
    while read -r it; do
        put "$1" "$it"
        [ "$it" = "$record" ] || echo "installed $to/$it"
    done < "$work/files"
}

# remove_all: removes the files in the record, Python's caches of them, and directories that become
# empty.
remove_all() {
    [ -f "$to/$record" ] || refuse "nothing is installed under $to"
    LC_ALL=C sort -r "$to/$record" > "$work/record"
    ! grep -q '^/\|^$\|\(^\|/\)\.\.\(/\|$\)' "$work/record" ||
        refuse "$to/$record isn't as it was written"
    cd "$to"
    sed 's:/*[^/]*$::' "$work/record" | while read -r folder; do may_write "$to/$folder"; done
    grep -v "/$\|^$record$" "$work/record" | xargs -d '\n' rm -fv --
    rm -f -- "$record"
    grep '/$' "$work/record" | while read -r folder; do
        case $folder in */semver_[pc]*) rm -rf -- "$folder/__pycache__" ;; esac
        rmdir -- "$to/${folder#./}" 2> /dev/null || :
    done
}

# say_what_to_set LIBRARIES PACKAGES: if the system doesn't search PREFIX, prints the commands that
# make a shell find the programs, a compiler the header and the library, and python3 the package.
say_what_to_set() {
    libraries=$PREFIX/$1 packages=$PREFIX/$2
    {
        case :$PATH: in *":$PREFIX/bin:"*) ;; *) sets PATH "$PREFIX/bin" ;; esac
        found=$(pkg-config --variable=pcfiledir semver_parser 2> /dev/null) || :
        [ "$found" = "$libraries/pkgconfig" ] || sets PKG_CONFIG_PATH "$libraries/pkgconfig"
        loads_from "$libraries" || sets LD_LIBRARY_PATH "$libraries"
        [ -z "$2" ] || python3 -c 'import sys; exit(sys.argv[1] not in sys.path)' "$packages" ||
            sets PYTHONPATH "$packages"
    } > "$work/to-set"
    [ -s "$work/to-set" ] || return 0
    echo "The system doesn't look below $PREFIX. In a shell, and in ~/.profile, enter:"
    cat "$work/to-set"
}

# sets VARIABLE DIRECTORY: prints the command that puts a directory first in a variable.
sets() {
    directory=$(printf '%s\n' "$2" | sed "/[^A-Za-z0-9/._-]/{ s/'/'\\\\''/g; s/.*/'&'/; }")
    printf '    export %s=%s"${%s:+:$%s}"\n' "$1" "$directory" "$1" "$1"
}

# loads_from DIRECTORY: returns whether a new process would load the shared library from there.
loads_from() {
    case :${LD_LIBRARY_PATH-}: in *":$1:"*) return ;; esac
    PATH=$PATH:/usr/sbin:/sbin ldconfig -p 2> /dev/null | grep -qF " => $1/libsemver_parser.so."
}
