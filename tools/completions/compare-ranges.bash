# bash completion for compare-ranges, generated from its help text by tools/make-completions.py.
_compare_ranges() {
    local word=${COMP_WORDS[COMP_CWORD]} before=${COMP_WORDS[COMP_CWORD - 1]}
    [ "$word" != = ] || word=
    [ "$before" != = ] || before=${COMP_WORDS[COMP_CWORD - 2]}
    COMPREPLY=()
    case $before in
    --dialect | --as) COMPREPLY=($(compgen -W 'cargo npm crate-cargo crate-npm' -- "$word")); return ;;
    --fail-on) COMPREPLY=($(compgen -W 'lost gained any' -- "$word")); return ;;
    esac
    case $word in
    -*) COMPREPLY=($(compgen -W '--dialect --as --npm --include-prerelease --pre --releases-only --releases --lowest --least --json --fail-on --upgrade -h --help --version' -- "$word")) ;;
    esac
}
complete -F _compare_ranges compare-ranges
