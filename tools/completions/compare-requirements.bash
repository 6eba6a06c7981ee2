# bash completion for compare-requirements, generated from its help text by tools/make-completions.py.
_compare_requirements() {
    local word=${COMP_WORDS[COMP_CWORD]} before=${COMP_WORDS[COMP_CWORD - 1]}
    [ "$word" != = ] || word=
    [ "$before" != = ] || before=${COMP_WORDS[COMP_CWORD - 2]}
    COMPREPLY=()
    case $before in
    --fail-on) COMPREPLY=($(compgen -W 'lost gained any' -- "$word")); return ;;
    esac
    case $word in
    -*) COMPREPLY=($(compgen -W '--git --fail-on --json --version -h --help' -- "$word")) ;;
    *) COMPREPLY=($(compgen -f -- "$word")) ;;
    esac
}
complete -o filenames -F _compare_requirements compare-requirements
