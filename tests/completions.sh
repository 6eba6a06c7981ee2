#!/bin/sh
# Completes options and their values in bash and in zsh, as a user does with the tab key. Prints
# which of these shells is missing, and skips it.
set -eu
top=$(dirname -- "$(dirname -- "$(readlink -f -- "$0")")")
cd "$top"
tools/make-completions.py --check
work=$(mktemp -d)
trap 'rm -rf "$work"' EXIT
trap 'exit 2' HUP INT TERM

fail() {
    echo "completions: $*"
    exit 1
}

# The program, the words before, the beginning of a word, and its completions, in order.
cat > "$work/cases" <<'END'
compare-ranges||--fa|--fail-on
compare-ranges|--fail-on|g|gained
compare-ranges|--dialect|crate|crate-cargo crate-npm
compare-ranges||--di|--dialect
release-filter|--as|n|npm
release-filter||--strip|--strip-prefix
release-filter|^1|--hi|--highest
check-lock-file|--format|js|json
check-lock-file|--format|sa|sarif
check-lock-file|--color|ne|never
check-lock-file||--w|--why
check-lock-file||--no-d|--no-dev
compare-requirements||--js|--json
END
count=$(wc -l < "$work/cases")

in_bash() {
    command -v bash > /dev/null || { echo 'no bash' && return; }
    while IFS='|' read -r program before word wanted; do
        found=$(bash --norc -c '
            . "tools/completions/$1.bash"
            COMP_WORDS=("$1" ${2:+"$2"} "$3") COMP_CWORD=$((${#COMP_WORDS[@]} - 1))
            "_${1//-/_}"
            echo "${COMPREPLY[*]}"' bash "$program" "$before" "$word")
        [ "$found" = "$wanted" ] || fail "bash: $program $before $word: $found instead of $wanted"
    done < "$work/cases"
    equals=$(bash --norc -c '. tools/completions/release-filter.bash
        COMP_WORDS=(release-filter --dialect = np) COMP_CWORD=3 && _release_filter && echo "${COMPREPLY[*]}"')
    [ "$equals" = npm ] || fail "bash: --dialect=np: $equals"
    echo bash
}

# Sends the words, a tab, and a key that prints the line to a shell in a pseudo-terminal. A shell
# that hangs is stopped after five minutes.
in_zsh() {
    command -v zsh > /dev/null || { echo 'no zsh' && return; }
    while IFS='|' read -r program before word wanted; do
        case $wanted in *' '*) continue ;; esac
        found=$(timeout 300 zsh -f -c '
            zmodload zsh/zpty
            zpty shell zsh -f -i
            zpty -w shell "PS1= fpath=($PWD/tools/completions \$fpath); autoload -U compinit; compinit -u -D"
            zpty -w shell "show() { print -r -- \"<<\$BUFFER>>\"; }; zle -N show; bindkey ^X show; print -r -- be\"\"gun"
            zpty -r shell output "*begun*"
            zpty -w -n shell "$1 ${2:+"$2" }$3"$'\''\t\x18'\''
            zpty -r shell output "*<<*>>*"
            output=${output#*<<}
            print -r -- ${output%%>>*}' zsh "$program" "$before" "$word") || found='nothing in time'
        case "$found " in *" $wanted"[\ =]*) ;; *) fail "zsh: $program $before $word: $found instead of $wanted" ;; esac
    done < "$work/cases"
    echo zsh
}

shells=$(in_bash) || { echo "$shells" && exit 1; }
others=$(in_zsh) || { echo "$others" && exit 1; }
echo "completions: $count cases, $shells, $others, passed"
