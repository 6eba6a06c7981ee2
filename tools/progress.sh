# Shows how far `rt` is with the program semver-parser, for ./semver-parser. The directory `work`
# has the file `begun`, which is as old as the proof, and `notes`, with the output of `rt`.

# crates: prints the crates that the program is made of, each after those that it uses, as
# crates.txt lists them.
crates() {
    awk '/^[a-z]/ { line[++count] = $0 }
        END {
            used["semver_parser_main"]
            for (at = count; at; at--) {
                split(line[at], words, /[: ]+/)
                if (words[1] in used) for (it in words) used[words[it]]
            }
            for (at = 1; at <= count; at++) {
                split(line[at], words, /[: ]+/)
                if (words[1] in used) print words[1]
            }
        }' "$top/crates.txt"
}

# begin_to_show: counts the words of the sources and proofs of each crate, for its share of all.
begin_to_show() {
    shown='' printed=0 began=$(date +%s)
    for name in $(crates); do
        echo "$name $(cd "$top/crates/$name" && find src specs proofs -type f -exec cat {} + \
            2> /dev/null | wc -w)"
    done > "$work/crates"
}

# find_crate: finds the crate that is being proved. `rt` writes to the directory out of a crate as
# soon as it begins with it. `before`, `own` and `all` are the words of the crates before it, of it,
# and of all.
find_crate() {
    name='' count=0 all=0
    while read -r next words; do
        count=$((count + 1))
        [ -z "$(find "$top/crates/$next/out" -maxdepth 3 -newer "$work/begun" -print -quit \
            2> /dev/null)" ] || name=$next at=$count before=$all own=$words
        all=$((all + words))
    done < "$work/crates"
}

# show_progress: writes which crate is being proved, the time since the beginning, and how much of
# all is done: one line for each crate, or at a terminal one that is rewritten. `rt` says for
# minutes that no function is checked. Until it says more, the line has the least and the most that
# can be done.
show_progress() {
    find_crate
    [ "$name" ] || return 0
    begins=''
    [ "$name" = "$shown" ] || begins=yes shown=$name printed=$(wc -l < "$work/notes")
    checked=$(sed -n "1,${printed}d; s/^so far: \([1-9][0-9]*\) of \([0-9]*\) .*/\1 \2/p" \
        "$work/notes" | tail -n 1)
    functions='' share="$((100 * before / all)) to $((100 * (before + own) / all))"
    if [ "$checked" ]; then
        functions=", ${checked% *} of ${checked#* } functions"
        share=$((100 * (before + own * ${checked% *} / ${checked#* }) / all))
    fi
    line="proving: crate $at of $count ($name)$functions, $(time_taken), $share % of all"
    if [ -t 2 ]; then
        # The terminal doesn't wrap the line.
        printf '\r\033[K\033[?7l%s\033[?7h' "$line" >&2
    elif [ "$begins" ]; then
        echo "$line" >&2
    fi
}

end_to_show() {
    [ ! -t 2 ] || printf '\r\033[K' >&2
}

# time_taken: prints the minutes and seconds since the proof began.
time_taken() {
    seconds=$(($(date +%s) - began))
    printf '%d:%02d' $((seconds / 60)) $((seconds % 60))
}
